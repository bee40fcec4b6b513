/* The five fields of a time. */

#ifndef TABLES_FIELD_H
#define TABLES_FIELD_H

#include <stdbool.h>
#include <stdint.h>

#include "tables/entry.h"

struct field {
    const char *name;
    uint64_t first;
    uint64_t last;     /* in the rising dialect */
    const char *names; /* names of its values, three letters each; "" if it has only numbers */
    const char *words; /* the names, for a message */
};
extern const struct field FIELD[FIELDS];

/* A field's last value in a dialect. */
uint64_t last_of(int field, uint64_t dialect);

/* Whether a text is a name of one of the field's values. Letter case doesn't matter. */
bool is_name_of(int field, struct slice text);

/*
 * Whether a word looks like a time field of some cron: stars, numbers and names of weekdays, with signs between them. A single name
 * counts only in capitals, since a command may have such a name.
 */
bool is_like_field(struct slice word);

/* The number of words that the time of an entry's line should have: one if it starts with @, otherwise five. */
int words_of_time(struct slice line);

#endif
