/* Dates: reading what is typed, and printing. */

#ifndef AGENDA_DATE_H
#define AGENDA_DATE_H

#include <stdbool.h>
#include <stdint.h>
#include <stdio.h>

/* The parts of a date, in the library's order. */
enum { DATE_YEAR, DATE_MONTH, DATE_DAY, DATE_HOUR, DATE_MINUTE, DATE_WEEKDAY, DATE_PARTS };

enum { MINUTES_A_DAY = 24 * 60 };

extern const char *const WEEKDAYS[7];
extern const char *const MONTH_NAMES[13]; /* counted from 1 */

/*
 * Reads 2026-11-15 or 2026-11-15T21:30, from 1970 to 9999: its first and its last minute. Without a time they are those of the
 * whole day. Returns false for any other text.
 */
struct minutes {
    uint64_t first;
    uint64_t last;
};
bool read_date(const char *text, struct minutes *minutes);

/* The same for an argument. Any other text is a misuse. */
bool take_date(const char *text, struct minutes *minutes);

/* Where firings start: at the date of --from, or without it in the minute after the one that the clock shows. */
bool take_start(const char *date, uint64_t *start);

/* Writes or prints a minute as 2026-11-15 Sun 21:30. */
enum { MAX_MINUTE = 40 };
void write_minute(char text[MAX_MINUTE], uint64_t minute);
void print_minute(FILE *to, uint64_t minute);

#endif
