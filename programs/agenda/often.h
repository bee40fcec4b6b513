/* Entries that fire many times a day. */

#ifndef AGENDA_OFTEN_H
#define AGENDA_OFTEN_H

#include "tables/entry.h"

/* Whether an entry fires more often than this, on a day on which it fires. */
enum { OFTEN = 4 };
bool is_often(const struct entry *entry);

/* How often an entry fires from one minute to another, both included. Boot isn't counted. */
uint64_t count_firings(const struct file *table, const struct entry *entry, uint64_t from, uint64_t to);

#endif
