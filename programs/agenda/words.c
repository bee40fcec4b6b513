/* When an entry fires, in plain words. */

#include <stdarg.h>
#include <stdio.h>
#include <stdlib.h>

#include "agenda/date.h"
#include "agenda/words.h"

/* Up to so many times of a day are listed. */
enum { MAX_TIMES = 6 };

enum { MINUTES = 60, HOURS = 24, MONTHS = 12, DAYS_A_WEEK = 7 };
static const uint64_t EVERY_HOUR = (UINT64_C(1) << HOURS) - 1;
static const uint64_t EVERY_MONTH = (UINT64_C(1) << (MONTHS + 1)) - 2;
static const uint64_t ODD_DAYS = UINT64_C(0xaaaaaaaa);
static const uint64_t EVEN_DAYS = UINT64_C(0x55555554);

/* For people, weeks start on Monday. */
static const char *const WEEKDAY_NAMES[DAYS_A_WEEK] = {
    "Monday", "Tuesday", "Wednesday", "Thursday", "Friday", "Saturday", "Sunday",
};

struct text {
    char *start;
    size_t length;
};

static void add(struct text *text, const char *format, ...)
{
    va_list values;
    va_start(values, format);
    int more = vsnprintf(text->start + text->length, MAX_WORDS - text->length, format, values);
    va_end(values);
    text->length += (size_t)more;
}

static bool has(uint64_t set, int value)
{
    return set >> value & 1;
}

static int least(uint64_t set)
{
    int value = 0;
    while (!has(set, value))
        value++;
    return value;
}

static int greatest(uint64_t set)
{
    int value = 63;
    while (!has(set, value))
        value--;
    return value;
}

/* Whether a set has every value from its least to its greatest. */
static bool has_no_gap(uint64_t set)
{
    return greatest(set) - least(set) + 1 == set_size(set);
}

/* The step of a set that goes round a clock of so many values at even distances, as 10, 30, 50 do; 0 if it doesn't. */
static int step_round(uint64_t set, int values)
{
    int count = set_size(set);
    if (count < 2 || values % count != 0)
        return 0;
    int step = values / count;
    uint64_t even = 0;
    for (int value = least(set); value < values; value += step)
        even |= UINT64_C(1) << value;
    return even == set ? step : 0;
}

typedef void add_value(struct text *text, int value);

/* Adds the values of a set with commas, and "and" before the last. Three or more in a row become "first to last". */
static void add_list(struct text *text, uint64_t set, add_value *add_one)
{
    uint64_t left = set;
    while (left != 0) {
        int first = least(left);
        int last = first;
        while (has(left, last + 1))
            last++;
        if (last - first < 2)
            last = first;
        const char *between = left == set ? "" : ", ";
        left = left >> last >> 1 << last << 1;
        add(text, left == 0 && between[0] != '\0' ? " and " : between);
        add_one(text, first);
        if (last > first) {
            add(text, " to ");
            add_one(text, last);
        }
    }
}

static void add_number(struct text *text, int value)
{
    add(text, "%d", value);
}

static void add_past_hour(struct text *text, int minute)
{
    add(text, ":%02d", minute);
}

static void add_day(struct text *text, int day)
{
    static const char *const ENDINGS[] = { "th", "st", "nd", "rd" };
    bool is_teen = day / 10 == 1;
    add(text, "%d%s", day, ENDINGS[is_teen || day % 10 > 3 ? 0 : day % 10]);
}

static void add_month(struct text *text, int month)
{
    add(text, "%s", MONTH_NAMES[month]);
}

static void add_weekday(struct text *text, int from_monday)
{
    add(text, "%s", WEEKDAY_NAMES[from_monday]);
}

static void add_weekdays(struct text *text, int from_monday)
{
    add(text, "%ss", WEEKDAY_NAMES[from_monday]);
}

/* Adds each time of the day. */
static void add_times(struct text *text, uint64_t minutes, uint64_t hours)
{
    int left = set_size(minutes) * set_size(hours);
    const char *between = "at ";
    for (int time = 0; time < HOURS * MINUTES; time++) {
        if (!has(hours, time / MINUTES) || !has(minutes, time % MINUTES))
            continue;
        add(text, "%s%02d:%02d", between, time / MINUTES, time % MINUTES);
        left--;
        between = left == 1 ? " and " : ", ";
    }
}

/* Adds when in an hour. Minutes that don't go round evenly are listed. */
static void add_minutes(struct text *text, uint64_t minutes, const char *before_list)
{
    int step = step_round(minutes, MINUTES);
    if (step == 0) {
        add(text, "%sat ", before_list);
        add_list(text, minutes, add_past_hour);
    } else if (step == 1) {
        add(text, "every minute");
    } else {
        add(text, "every %d minutes", step);
        if (least(minutes) > 0)
            add(text, " from :%02d", least(minutes));
    }
}

/* Adds when in a day. */
static void add_time(struct text *text, uint64_t minutes, uint64_t hours)
{
    int step = step_round(hours, HOURS);
    if (set_size(minutes) * set_size(hours) <= MAX_TIMES) {
        add_times(text, minutes, hours);
    } else if (hours == EVERY_HOUR) {
        add_minutes(text, minutes, "hourly ");
    } else if (set_size(minutes) == 1 && step > 0) {
        add(text, "every %d hours from %02d:%02d", step, least(hours), least(minutes));
    } else if (set_size(minutes) == 1 && has_no_gap(hours)) {
        add(text, "hourly from %02d:%02d to %02d:%02d", least(hours), least(minutes), greatest(hours), least(minutes));
    } else {
        add_minutes(text, minutes, "");
        add(text, set_size(hours) == 1 ? " in the hour " : " in the hours ");
        add_list(text, hours, add_number);
    }
}

/* A set of weekdays that starts with Monday. */
static uint64_t from_monday(uint64_t weekdays)
{
    return weekdays >> 1 | (weekdays & 1) << (DAYS_A_WEEK - 1);
}

/* Adds days of the month, by their numbers. */
static void add_days(struct text *text, uint64_t days)
{
    if (days == ODD_DAYS || days == EVEN_DAYS) {
        add(text, days == ODD_DAYS ? "odd days" : "even days");
    } else {
        add(text, "the ");
        add_list(text, days, add_day);
    }
}

/* Adds the months after some words; nothing if all months are meant. */
static void add_months(struct text *text, const char *words, uint64_t months)
{
    if (months == EVERY_MONTH)
        return;
    add(text, "%s", words);
    add_list(text, months, add_month);
}

/* Adds the months to which the days belong. */
static void add_of_months(struct text *text, uint64_t days, uint64_t weekdays, uint64_t months)
{
    bool is_said = days == ODD_DAYS || days == EVEN_DAYS || weekdays != EVERY_WEEKDAY;
    if (months == EVERY_MONTH && is_said)
        add(text, " of the month");
    add_months(text, " of ", months);
}

/* Whether the words so far are like "at 21:30", which says nothing about the day. */
static bool names_times(const struct text *text)
{
    return text->start[0] == 'a';
}

/* Adds the days that are in both sets. */
static void add_both(struct text *text, uint64_t days, uint64_t weekdays, uint64_t months)
{
    if (days == EVERY_DAY && weekdays == EVERY_WEEKDAY) {
        if (names_times(text))
            add(text, " every day");
        add_months(text, " in ", months);
        return;
    }
    add(text, " on ");
    if (weekdays != EVERY_WEEKDAY)
        add_list(text, from_monday(weekdays), add_weekdays);
    if (days == EVERY_DAY) {
        add_months(text, " in ", months);
        return;
    }
    if (weekdays != EVERY_WEEKDAY)
        add(text, " that are ");
    add_days(text, days);
    add_of_months(text, days, weekdays, months);
}

/* Adds the days that are in one of the sets. Neither set has all days. */
static void add_either(struct text *text, uint64_t days, uint64_t weekdays, uint64_t months)
{
    add(text, " on ");
    add_days(text, days);
    add(text, days == ODD_DAYS || days == EVEN_DAYS ? " of the month, and on every " : ", and on every ");
    add_list(text, from_monday(weekdays), add_weekday);
    add_months(text, ", in ", months);
}

void words_of(const struct entry *entry, char words[MAX_WORDS])
{
    struct text text = { words, 0 };
    if (entry->at_boot) {
        add(&text, "at boot");
        return;
    }
    const uint64_t *sets = entry->times.sets;
    struct day_rule rule = day_rule_of(entry);
    add_time(&text, sets[MINUTE], sets[HOUR]);
    if (rule.is_either)
        add_either(&text, rule.days, rule.weekdays, sets[MONTH]);
    else
        add_both(&text, rule.days, rule.weekdays, sets[MONTH]);
}

void clock_of(const struct entry *entry, char words[CLOCK_WORDS])
{
    int distance = abs(entry->offset);
    snprintf(words, CLOCK_WORDS, "%c%02d:%02d", entry->offset < 0 ? '-' : '+', distance / MINUTES % 100, distance % MINUTES);
}
