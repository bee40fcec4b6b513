/* Dates: reading what is typed, and printing. */

#include <ctype.h>
#include <inttypes.h>
#include <string.h>
#include <time.h>

#include "agenda/date.h"
#include "arguments/message.h"
#include "eremothyn.h"

const char *const WEEKDAYS[7] = { "Sun", "Mon", "Tue", "Wed", "Thu", "Fri", "Sat" };
const char *const MONTH_NAMES[13] = {
    "", "January", "February", "March", "April", "May", "June", "July", "August", "September", "October", "November", "December",
};

/* Whether a text has a form, in which d means a digit. */
static bool is_of_form(const char *text, const char *form)
{
    while (*form != '\0' && (*form == 'd' ? isdigit((unsigned char)*text) : *text == *form)) {
        text++;
        form++;
    }
    return *form == '\0' && *text == '\0';
}

/* The number that some digits mean. */
static uint64_t number(const char *digits, int count)
{
    uint64_t value = 0;
    for (int i = 0; i < count; i++)
        value = 10 * value + (uint64_t)(digits[i] - '0');
    return value;
}

bool read_date(const char *text, struct minutes *minutes)
{
    bool has_time = is_of_form(text, "dddd-dd-ddTdd:dd");
    if (!has_time && !is_of_form(text, "dddd-dd-dd"))
        return false;
    uint64_t hour = has_time ? number(text + 11, 2) : 0;
    uint64_t minute = has_time ? number(text + 14, 2) : 0;
    minutes->first = eremothyn_minute_of_date(number(text, 4), number(text + 5, 2), number(text + 8, 2), hour, minute);
    minutes->last = minutes->first + (has_time ? 0 : MINUTES_A_DAY - 1);
    return !EREMOTHYN_IS_REFUSED(minutes->first);
}

bool take_date(const char *text, struct minutes *minutes)
{
    if (read_date(text, minutes))
        return true;
    misuse("'%s' is no date from 1970-01-01 to 9999-12-31, as 2026-11-15 or 2026-11-15T21:30", text);
    return false;
}

/* The minute of the clock, or the last one of the calendar if the clock is later. */
static uint64_t minute_now(void)
{
    time_t now = time(NULL);
    uint64_t minute = now > 0 ? (uint64_t)now / 60 : 0;
    return minute < EREMOTHYN_LAST_MINUTE ? minute : EREMOTHYN_LAST_MINUTE;
}

bool take_start(const char *date, uint64_t *start)
{
    struct minutes minutes = { minute_now() + 1, 0 };
    bool is_taken = date == NULL || take_date(date, &minutes);
    *start = minutes.first;
    return is_taken;
}

void write_minute(char text[MAX_MINUTE], uint64_t minute)
{
    uint16_t date[DATE_PARTS];
    eremothyn_date(minute, date, DATE_PARTS);
    snprintf(text, MAX_MINUTE, "%04u-%02u-%02u %s %02u:%02u", (unsigned)date[DATE_YEAR], (unsigned)date[DATE_MONTH],
             (unsigned)date[DATE_DAY], WEEKDAYS[date[DATE_WEEKDAY]], (unsigned)date[DATE_HOUR], (unsigned)date[DATE_MINUTE]);
}

void print_minute(FILE *to, uint64_t minute)
{
    char text[MAX_MINUTE];
    write_minute(text, minute);
    fputs(text, to);
}
