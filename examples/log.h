/* What the example daemons print: dates, texts, and the position of a table's fault. */

#ifndef LOG_H
#define LOG_H

#include <errno.h>
#include <inttypes.h>
#include <stdint.h>
#include <stdio.h>
#include <string.h>

#include "eremothyn.h"
#include "table_file.h"

/* Prints a minute's date and weekday. */
static inline void print_date(uint64_t minute)
{
    static const char weekdays[7][4] = { "Sun", "Mon", "Tue", "Wed", "Thu", "Fri", "Sat" };
    uint16_t date[6];
    if (eremothyn_date(minute, date, 6) == 6)
        printf("%04u-%02u-%02u %s %02u:%02u", (unsigned)date[0], (unsigned)date[1], (unsigned)date[2], weekdays[date[5]],
               (unsigned)date[3], (unsigned)date[4]);
    else
        fputs("off the calendar", stdout);
}

/* Prints a text between bars: a newline as \n, a backslash as \\, and every byte that isn't printable ASCII as \xHH. */
static inline void print_text(const uint8_t *text, uint64_t length)
{
    putchar('|');
    for (uint64_t i = 0; i < length; i++) {
        if (text[i] == '\n')
            fputs("\\n", stdout);
        else if (text[i] == '\\')
            fputs("\\\\", stdout);
        else if (text[i] < ' ' || text[i] > '~')
            printf("\\x%02x", (unsigned)text[i]);
        else
            putchar(text[i]);
    }
    putchar('|');
}

/* Reads a file that must be a good table. Returns 0; or 1 if it is refused, and 2 if it can't be read, which is logged. */
static inline int read_good_table(const char *name, struct table_file *table, uint64_t kind, uint64_t dialect, FILE *log)
{
    if (!read_table(name, table)) {
        fprintf(log, "%s: %s\n", name, strerror(errno));
        return 2;
    }
    uint64_t entries = eremothyn_check(table->bytes, table->length, kind, dialect);
    if (EREMOTHYN_IS_REFUSED(entries))
        fprintf(log, "%s:%" PRIu64 ":%" PRIu64 ": refused %" PRIu64 ": %s\n", name,
                eremothyn_fault_line(table->bytes, table->length, kind, dialect),
                eremothyn_fault_column(table->bytes, table->length, kind, dialect), EREMOTHYN_REFUSAL(entries),
                eremothyn_words(EREMOTHYN_REFUSAL(entries)));
    return EREMOTHYN_IS_REFUSED(entries) ? 1 : 0;
}

#endif
