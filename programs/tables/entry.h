/* The entries of a table, with what the library says about each. */

#ifndef TABLES_ENTRY_H
#define TABLES_ENTRY_H

#include <stdbool.h>
#include <stdint.h>

#include "tables/file.h"

/* The five fields, in the order of a line. A set has bit n for the value n. Sunday is 0. */
enum { MINUTE, HOUR, DAY, MONTH, WEEKDAY, FIELDS };

#define EVERY_DAY UINT64_C(0xfffffffe)
#define EVERY_WEEKDAY UINT64_C(0x7f)

/* The number of values in a set. */
int set_size(uint64_t set);

struct times {
    uint64_t sets[FIELDS];
    bool stars[FIELDS]; /* which fields start with a star */
};

struct entry {
    uint64_t line;
    bool at_boot;       /* then it has no times */
    struct times times; /* by its own clock */
    bool has_clock;     /* whether a CRON_TZ is before it */
    int offset;         /* how many minutes its clock is ahead of UTC */
    struct slice owner; /* its user column; empty in a user table */
    struct slice command;
};

/* All entries of a good table, by their numbers. */
struct entries {
    struct entry all[EREMOTHYN_MAX_ENTRIES];
    uint64_t count;
};

void read_entries(const struct file *table, struct entries *entries);

/* The line of an entry, with its newline. It is a table of one entry, by UTC. */
struct slice text_of(const struct file *table, const struct entry *entry);

/* Writes a line with an entry's time and a command of one letter. It is never too long. */
struct slice write_time(struct slice line, const struct entry *entry, uint8_t text[EREMOTHYN_MAX_LINE + 2]);

/*
 * The days on which an entry fires: those in both sets, or in either. If either is enough and one set has every day, the entry
 * fires every day: then both sets have all.
 */
struct day_rule {
    uint64_t days;
    uint64_t weekdays;
    bool is_either;
};
struct day_rule day_rule_of(const struct entry *entry);

/* Whether two entries run the same command for the same user at the same times by the same clock. */
bool is_same_entry(const struct entry *one, const struct entry *other);

#endif
