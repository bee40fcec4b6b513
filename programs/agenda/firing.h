/* A table's firings, one after the other. */

#ifndef AGENDA_FIRING_H
#define AGENDA_FIRING_H

#include <stdbool.h>
#include <stdint.h>

#include "tables/file.h"

struct firing {
    uint64_t minute;
    uint64_t entry;
};

/* The first minute, from a given one on, at which an entry of a good table fires; or a refusal. */
uint64_t first_firing(const struct file *table, uint64_t entry, uint64_t from);

/* Firings that the library listed. The buffer holds all firings of any one minute, and one more. */
enum { AT_ONCE = 4 * EREMOTHYN_MAX_ENTRIES };
struct firings {
    const struct file *table;
    uint64_t from;
    uint64_t to;
    uint32_t minutes[AT_ONCE];
    uint16_t entries[AT_ONCE];
    uint64_t count;
    uint64_t taken;
    bool has_more;
};

/* Starts with the firings of a good table from one minute to another, both included, ordered by minute and then by entry. */
void start_firings(const struct file *table, uint64_t from, uint64_t to, struct firings *firings);

/* Takes the next firing. Returns false if there is none. */
bool next_firing(struct firings *firings, struct firing *firing);

#endif
