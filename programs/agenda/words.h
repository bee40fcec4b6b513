/* When an entry fires, in plain words. */

#ifndef AGENDA_WORDS_H
#define AGENDA_WORDS_H

#include "tables/entry.h"

/* Enough for the words of any entry, and a zero byte. */
enum { MAX_WORDS = 2048 };

/*
 * "every 5 minutes", "at 04:30 on the 1st and 15th, and on every Friday". The words come from the sets, and from whether a day must
 * be in both day sets or may be in either. If every day is meant, no days are named. Entries with different times have different
 * words, and entries with the same times have the same. The clock isn't named.
 */
void words_of(const struct entry *entry, char words[MAX_WORDS]);

/* Writes a clock as +12:45. */
enum { CLOCK_WORDS = 8 };
void clock_of(const struct entry *entry, char words[CLOCK_WORDS]);

#endif
