/*
 * The entries that fire rarely, day by day. The library lists their firings from a copy of the table in which the other entries are
 * comments, so those cost no time.
 */

#include <inttypes.h>
#include <stdio.h>

#include "agenda/agenda.h"
#include "agenda/date.h"
#include "agenda/days.h"
#include "agenda/firing.h"
#include "agenda/job.h"
#include "agenda/often.h"

/* The copy, and for each of its entries the number that it has in the whole table. */
struct rare {
    struct file table;
    uint64_t numbers[EREMOTHYN_MAX_ENTRIES];
    uint64_t count;
};

static void keep_rare(const struct agenda *agenda, struct rare *rare)
{
    rare->table = agenda->table;
    rare->count = 0;
    for (uint64_t i = 0; i < agenda->entries.count; i++) {
        const struct entry *entry = &agenda->entries.all[i];
        if (entry->at_boot || is_often(entry))
            rare->table.bytes[text_of(&agenda->table, entry).start - agenda->table.bytes] = '#';
        else
            rare->numbers[rare->count++] = i;
    }
}

/*
 * What was printed so far: the last day, how many days, and the month and the week of the last day, counted from the calendar's
 * start.
 */
struct so_far {
    uint64_t day;
    uint64_t days;
    uint64_t month;
    uint64_t week;
};

static struct so_far with_day_of(struct so_far before, uint64_t minute, const uint16_t date[DATE_PARTS])
{
    struct so_far now = { minute / MINUTES_A_DAY, before.days, 12 * (uint64_t)date[DATE_YEAR] + date[DATE_MONTH], 0 };
    /* The first day is a Thursday, and weeks start on Monday. */
    now.week = (now.day + 3) / 7;
    if (before.days == 0 || now.day != before.day)
        now.days++;
    return now;
}

/* Writes what comes before the job on a firing's line. The day and the weekday are there if they are new. */
static void write_lead(char *lead, size_t size, const uint16_t date[DATE_PARTS], bool is_new, const char *local)
{
    char day[MAX_MINUTE];
    snprintf(day, sizeof day, "%2u %s", (unsigned)date[DATE_DAY], WEEKDAYS[date[DATE_WEEKDAY]]);
    snprintf(lead, size, "%6s  %02u:%02u  %s", is_new ? day : "", (unsigned)date[DATE_HOUR], (unsigned)date[DATE_MINUTE], local);
}

/* Prints a firing. At the top of a page its month and its day are repeated. */
static void put_firing(struct agenda *agenda, const struct entry *entry, uint64_t minute, struct so_far *so_far)
{
    uint16_t date[DATE_PARTS];
    char job[MAX_JOB], lead[COLUMNS + MAX_LOCAL], local[MAX_LOCAL] = "";
    eremothyn_date(minute, date, DATE_PARTS);
    struct so_far now = with_day_of(*so_far, minute, date);
    bool is_new_day = now.days > so_far->days;
    bool is_new_month = so_far->days == 0 || now.month != so_far->month;
    if (now.week != so_far->week)
        put_gap(&agenda->page);
    job_of(&agenda->table, entry, job);
    if (agenda->is_local)
        local_of(entry, minute, local);
    write_lead(lead, sizeof lead, date, is_new_day, local);
    bool is_turned = !has_room(&agenda->page, (struct block){ NULL, lead, job });
    if (is_new_month || is_turned) {
        char month[MAX_HEADING];
        snprintf(month, sizeof month, "%s %u", MONTH_NAMES[date[DATE_MONTH]], (unsigned)date[DATE_YEAR]);
        put_heading(&agenda->page, month);
    }
    write_lead(lead, sizeof lead, date, is_new_day || is_turned, local);
    put_block(&agenda->page, (struct block){ NULL, lead, job });
    *so_far = now;
}

/* Prints how many days of the span were left out. */
static void put_left_out(struct agenda *agenda, uint64_t days)
{
    char words[2 * COLUMNS];
    uint64_t all = agenda->to / MINUTES_A_DAY - agenda->from / MINUTES_A_DAY + 1;
    if (days == 0 || days == all)
        return;
    snprintf(words, sizeof words, "Days without any are left out: %" PRIu64 " of %" PRIu64 ".", all - days, all);
    put_gap(&agenda->page);
    put_block(&agenda->page, (struct block){ NULL, "", words });
}

void put_days(struct agenda *agenda)
{
    static struct rare rare;
    static struct firings firings;
    struct firing firing;
    struct so_far so_far = { 0, 0, 0, 0 };
    keep_rare(agenda, &rare);
    start_firings(&rare.table, agenda->from, agenda->to, &firings);
    while (!ferror(stdout) && next_firing(&firings, &firing)) {
        uint64_t number = rare.numbers[firing.entry];
        put_firing(agenda, &agenda->entries.all[number], firing.minute, &so_far);
        agenda->fires[number] = true;
    }
    put_left_out(agenda, so_far.days);
}
