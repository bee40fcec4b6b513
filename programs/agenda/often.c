/*
 * Entries that fire many times a day, and how often they do. Everything here goes by an entry's own clock: its line is a table of
 * its own, without a CRON_TZ before it. Whole days aren't searched minute by minute. The library lists the days of a line that
 * fires only at midnight, and each of these days has as many firings as the entry has times. Only the incomplete days at the ends
 * of a span are listed minute by minute.
 */

#include <string.h>

#include "agenda/date.h"
#include "agenda/firing.h"
#include "agenda/often.h"

/* A line of a table, as a table of its own. */
struct alone {
    struct slice line;
    struct rules rules;
};

/* The days on which an entry fires repeat after 400 years, which are a whole number of weeks. */
enum { CYCLE = 146097 };

/* How often an entry fires on a day on which it fires. */
static uint64_t times_a_day(const struct entry *entry)
{
    return (uint64_t)(set_size(entry->times.sets[MINUTE]) * set_size(entry->times.sets[HOUR]));
}

bool is_often(const struct entry *entry)
{
    return times_a_day(entry) > OFTEN;
}

/* How many firings the library lists, both ends included. No minute is before the first one, so that is asked for separately. */
static uint64_t count_listed(struct alone alone, uint64_t first, uint64_t last)
{
    uint32_t run[AT_ONCE];
    uint64_t count = first == 0 ? eremothyn_due(LINE(alone.line, alone.rules), 0, 0) : 0;
    uint64_t after = first == 0 ? 0 : first - 1;
    uint64_t answer = eremothyn_firings(LINE(alone.line, alone.rules), 0, after, last, run, AT_ONCE);
    while (EREMOTHYN_HAS_MORE(answer)) {
        count += AT_ONCE;
        answer = eremothyn_firings(LINE(alone.line, alone.rules), 0, run[AT_ONCE - 1], last, run, AT_ONCE);
    }
    return count + EREMOTHYN_FILLED(answer);
}

/* The same for a line that fires at midnight, from one day to the day before another. */
static uint64_t count_days(struct alone alone, uint64_t first, uint64_t end)
{
    uint64_t rest = first + (end - first) / CYCLE * CYCLE;
    uint64_t count = rest < end ? count_listed(alone, rest * MINUTES_A_DAY, end * MINUTES_A_DAY - 1) : 0;
    if (first < rest)
        count += (rest - first) / CYCLE * count_listed(alone, first * MINUTES_A_DAY, (first + CYCLE) * MINUTES_A_DAY - 1);
    return count;
}

/* Writes the line that fires at midnight on an entry's days: its normal form, with other fields for the minute and the hour. */
static struct alone days_of(struct slice line, const struct entry *entry, uint64_t dialect, uint8_t text[EREMOTHYN_MAX_LINE + 2])
{
    static const uint8_t MIDNIGHT[] = "0 0";
    uint8_t normal[EREMOTHYN_MAX_LINE + 1];
    struct slice time = write_time(line, entry, text);
    uint64_t length = eremothyn_normal_form(time.start, time.length, dialect, normal, sizeof normal);
    const uint8_t *rest = normal;
    for (int field = 0; field <= HOUR; field++)
        rest = (const uint8_t *)memchr(rest, ' ', length) + 1;
    length -= (uint64_t)(rest - 1 - normal);
    memcpy(text, MIDNIGHT, sizeof MIDNIGHT - 1);
    memcpy(text + sizeof MIDNIGHT - 1, rest - 1, length);
    struct rules rules = { EREMOTHYN_USER_TABLE, EREMOTHYN_RISING };
    return (struct alone){ { text, length + sizeof MIDNIGHT - 1 }, rules };
}

/* How often an entry fires by its own clock, from one minute of the calendar to another. */
static uint64_t count_local(struct slice line, const struct entry *entry, struct rules rules, uint64_t from, uint64_t to)
{
    uint8_t text[EREMOTHYN_MAX_LINE + 2];
    struct alone itself = { line, rules };
    uint64_t first = (from + MINUTES_A_DAY - 1) / MINUTES_A_DAY;
    uint64_t end = (to + 1) / MINUTES_A_DAY;
    if (first >= end)
        return count_listed(itself, from, to);
    uint64_t count = times_a_day(entry) * count_days(days_of(line, entry, rules.dialect, text), first, end);
    if (from < first * MINUTES_A_DAY)
        count += count_listed(itself, from, first * MINUTES_A_DAY - 1);
    if (end * MINUTES_A_DAY <= to)
        count += count_listed(itself, end * MINUTES_A_DAY, to);
    return count;
}

uint64_t count_firings(const struct file *table, const struct entry *entry, uint64_t from, uint64_t to)
{
    int64_t first = (int64_t)from + entry->offset;
    int64_t last = (int64_t)to + entry->offset;
    /* Nothing fires while the entry's clock shows a minute off the calendar. */
    if (entry->at_boot || last < 0 || first > (int64_t)EREMOTHYN_LAST_MINUTE)
        return 0;
    if (first < 0)
        first = 0;
    if (last > (int64_t)EREMOTHYN_LAST_MINUTE)
        last = (int64_t)EREMOTHYN_LAST_MINUTE;
    return count_local(text_of(table, entry), entry, table->rules, (uint64_t)first, (uint64_t)last);
}
