/* The faults of a table: its bad lines, and the fault for which the library refuses it. */

#ifndef DIAGNOSTICS_FAULT_H
#define DIAGNOSTICS_FAULT_H

#include "diagnostics/diagnostic.h"

struct fault {
    uint64_t refusal;
    struct position position;
    struct slice line; /* without its newline; empty if the whole table is refused */
    struct rules rules;
    bool follows_backslash; /* whether the line before ends in one */
};

/*
 * Prints the faults of a table that the library refuses, and how many there are. The first is the one for which the library refuses
 * the table. The lines after it are checked one by one, so each line has at most one. Returns REFUSED.
 */
int print_faults(struct style style, const char *name, const struct file *table);

/* Reads a table, and returns DONE if it is good. If it can't be read or is refused, that is reported on standard error. */
int read_good_table(const char *name, struct rules rules, struct file *table);

/* Reports on standard error where and why a table has no normal text, and so no records. Returns REFUSED. */
int refuse_text(const char *name, const struct file *table, uint64_t refusal);

#endif
