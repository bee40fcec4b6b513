/*
 * Minutes and dates of the calendar.
 *
 *     date                                  a few known minutes and their dates
 *     date MINUTE                           the minute's date
 *     date YEAR MONTH DAY HOUR MINUTE       the date's minute
 *
 * Built from the repository's root:
 *
 *     cc -std=c99 -Iinclude -o date examples/date.c target/staticlib/liberemothyn.a
 */

#include <inttypes.h>
#include <stdbool.h>
#include <stdint.h>
#include <stdio.h>

#include "eremothyn.h"

enum { DONE = 0, REFUSED = 1, MISUSED = 2 };

static int usage(void)
{
    fputs("usage: date [MINUTE | YEAR MONTH DAY HOUR MINUTE], each a number below 2^64\n", stderr);
    return MISUSED;
}

/* Reads a number that fits 64 bits. The text must have only digits. */
static bool read_number(const char *text, uint64_t *number)
{
    uint64_t value = 0;
    if (*text == '\0')
        return false;
    for (; *text != '\0'; text++) {
        if (*text < '0' || *text > '9')
            return false;
        uint64_t digit = (uint64_t)(*text - '0');
        if (value > (UINT64_MAX - digit) / 10)
            return false;
        value = value * 10 + digit;
    }
    *number = value;
    return true;
}

static int print_date(uint64_t minute)
{
    static const char *const weekdays[] = {
        "Sunday", "Monday", "Tuesday", "Wednesday", "Thursday", "Friday", "Saturday",
    };
    uint16_t date[6];
    uint64_t answer = eremothyn_date(minute, date, 6);
    if (EREMOTHYN_IS_REFUSED(answer)) {
        fprintf(stderr, "date: minute %" PRIu64 " has no date: the calendar's last minute is %" PRIu64 " (refusal %" PRIu64 ")\n",
                minute, EREMOTHYN_LAST_MINUTE, EREMOTHYN_REFUSAL(answer));
        return REFUSED;
    }
    printf("%04u-%02u-%02u %02u:%02u %s\n", (unsigned)date[0], (unsigned)date[1], (unsigned)date[2], (unsigned)date[3],
           (unsigned)date[4], weekdays[date[5]]);
    return DONE;
}

static int print_minute(uint64_t year, uint64_t month, uint64_t day, uint64_t hour, uint64_t minute)
{
    uint64_t answer = eremothyn_minute_of_date(year, month, day, hour, minute);
    if (EREMOTHYN_IS_REFUSED(answer)) {
        fprintf(stderr,
                "date: %04" PRIu64 "-%02" PRIu64 "-%02" PRIu64 " %02" PRIu64 ":%02" PRIu64
                " has no minute: there is no such date from 1970 to 9999 (refusal %" PRIu64 ")\n",
                year, month, day, hour, minute, EREMOTHYN_REFUSAL(answer));
        return REFUSED;
    }
    printf("%" PRIu64 "\n", answer);
    return DONE;
}

static int print_known(void)
{
    static const uint64_t known[] = { 0, 15863040, 66355200, EREMOTHYN_LAST_MINUTE };
    for (size_t i = 0; i < sizeof known / sizeof known[0]; i++) {
        printf("%10" PRIu64 "  ", known[i]);
        if (print_date(known[i]) != DONE)
            return REFUSED;
    }
    return DONE;
}

int main(int argc, char **argv)
{
    uint64_t numbers[5];
    int count = argc > 0 ? argc - 1 : 0;
    if (count != 0 && count != 1 && count != 5)
        return usage();
    for (int i = 0; i < count; i++)
        if (!read_number(argv[i + 1], &numbers[i]))
            return usage();

    int status;
    switch (count) {
    case 0: status = print_known(); break;
    case 1: status = print_date(numbers[0]); break;
    default: status = print_minute(numbers[0], numbers[1], numbers[2], numbers[3], numbers[4]);
    }
    if (fflush(stdout) != 0 || ferror(stdout)) {
        fputs("date: standard output can't be written\n", stderr);
        return MISUSED;
    }
    return status;
}
