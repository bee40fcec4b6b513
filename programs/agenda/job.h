/* What an entry runs, and when by its own clock, for people. */

#ifndef AGENDA_JOB_H
#define AGENDA_JOB_H

#include "tables/entry.h"

/* Writes the shell line, in a system table after the user column and two blanks. An empty one is "(an empty command)". */
enum { MAX_JOB = EREMOTHYN_MAX_LINE + 32 };
void job_of(const struct file *table, const struct entry *entry, char job[MAX_JOB]);

/* Gets the bytes of the job's standard input. Returns false if it has none. */
bool input_of(const struct file *table, const struct entry *entry, uint8_t bytes[EREMOTHYN_MAX_LINE], struct slice *input);

/* Writes the local time of an entry at a minute, as "[Mon 07:00 +12:45] "; "" if no CRON_TZ is before the entry. */
enum { MAX_LOCAL = 40 };
void local_of(const struct entry *entry, uint64_t minute, char local[MAX_LOCAL]);

#endif
