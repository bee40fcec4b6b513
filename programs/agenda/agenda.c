/* eremothyn agenda [-s] [--dialect NAME] [--local] [--page] FILE FROM TO: what will fire in a span of minutes, for people. */

#define _XOPEN_SOURCE 700

#include <inttypes.h>
#include <stdio.h>
#include <string.h>

#include "agenda/agenda.h"
#include "agenda/date.h"
#include "agenda/days.h"
#include "agenda/firing.h"
#include "agenda/job.h"
#include "agenda/often.h"
#include "agenda/words.h"
#include "arguments/arguments.h"
#include "arguments/message.h"
#include "diagnostics/fault.h"
#include "tables/character.h"

enum { LOCAL, PAGE };
static const struct option OPTIONS[] = {
    [LOCAL] = { 0, "local", NULL, "show each entry's own hours, too, where CRON_TZ is set" },
    [PAGE] = { 0, "page", NULL, "pages of 60 lines, with form feeds between them" },
    { NO_OPTION },
};

/* Writes the minute at which a span starts or ends; only the day, if the span has the whole day. */
static void write_end(char text[MAX_MINUTE], uint64_t minute, bool is_whole)
{
    uint16_t date[DATE_PARTS];
    eremothyn_date(minute, date, DATE_PARTS);
    char time[MAX_MINUTE / 2] = "";
    if (!is_whole)
        snprintf(time, sizeof time, " %02u:%02u", (unsigned)date[DATE_HOUR], (unsigned)date[DATE_MINUTE]);
    snprintf(text, MAX_MINUTE, "%04u-%02u-%02u%s", (unsigned)date[DATE_YEAR], (unsigned)date[DATE_MONTH], (unsigned)date[DATE_DAY],
             time);
}

/* Longer than the name of any file. */
enum { MAX_NAME = 8192 };

/* Prints the title. With pages, the top of every page takes its place. */
static void put_title(struct agenda *agenda, const char *name, bool has_pages)
{
    static char shown[MAX_NAME], title[MAX_NAME + COLUMNS], span[2 * MAX_MINUTE + COLUMNS];
    char from[MAX_MINUTE], to[MAX_MINUTE];
    write_end(from, agenda->from, agenda->from % MINUTES_A_DAY == 0);
    write_end(to, agenda->to, agenda->to % MINUTES_A_DAY == MINUTES_A_DAY - 1);
    snprintf(span, sizeof span, "%s to %s, UTC", from, to);
    show_text(shown, (struct slice){ (const uint8_t *)name, strnlen(name, sizeof shown - 1) });
    if (has_pages) {
        start_pages(&agenda->page, shown, span);
        return;
    }
    start_text(&agenda->page);
    snprintf(title, sizeof title, "Agenda of %s", shown);
    put_block(&agenda->page, (struct block){ title, "", span });
}

/* Writes when an entry fires, by its clock, and how often. */
enum { MAX_OFTEN = MAX_WORDS + 64 };
static void write_often(char text[MAX_OFTEN], const struct entry *entry, uint64_t count)
{
    char words[MAX_WORDS];
    char clock[CLOCK_WORDS];
    words_of(entry, words);
    clock_of(entry, clock);
    snprintf(text, MAX_OFTEN, "%s%s%s, %" PRIu64 " %s:", words, entry->has_clock ? ", by the clock " : "",
             entry->has_clock ? clock : "", count, count == 1 ? "time" : "times");
}

/* Prints the entries that fire often. Neighbours with the same times share one line of words. */
static void put_often(struct agenda *agenda)
{
    static char now[MAX_OFTEN], last[MAX_OFTEN];
    char job[MAX_JOB];
    put_heading(&agenda->page, "Often");
    for (uint64_t i = 0; i < agenda->entries.count && !ferror(stdout); i++) {
        const struct entry *entry = &agenda->entries.all[i];
        uint64_t count = is_often(entry) ? count_firings(&agenda->table, entry, agenda->from, agenda->to) : 0;
        if (count == 0)
            continue;
        agenda->fires[i] = true;
        job_of(&agenda->table, entry, job);
        write_often(now, entry, count);
        struct block block = { NULL, "    ", job };
        if (strcmp(now, last) != 0 || !has_room(&agenda->page, block))
            block.title = now;
        put_block(&agenda->page, block);
        strcpy(last, now);
    }
}

static void put_boot(struct agenda *agenda)
{
    char job[MAX_JOB];
    put_heading(&agenda->page, "At boot");
    for (uint64_t i = 0; i < agenda->entries.count; i++) {
        if (!agenda->entries.all[i].at_boot)
            continue;
        job_of(&agenda->table, &agenda->entries.all[i], job);
        put_block(&agenda->page, (struct block){ NULL, "", job });
    }
}

/* Prints an entry that doesn't fire in the span: when it fires next, or that it never does. */
static void put_absent(struct agenda *agenda, uint64_t number)
{
    const struct entry *entry = &agenda->entries.all[number];
    char job[MAX_JOB], lead[COLUMNS + MAX_LOCAL], when[MAX_MINUTE], local[MAX_LOCAL] = "";
    uint64_t next = first_firing(&agenda->table, number, agenda->to + 1);
    if (!EREMOTHYN_IS_REFUSED(next)) {
        write_minute(when, next);
        if (agenda->is_local)
            local_of(entry, next, local);
    } else {
        strcpy(when, EREMOTHYN_REFUSAL(next) == EREMOTHYN_NEVER ? "never fires" : "fires no more");
    }
    job_of(&agenda->table, entry, job);
    snprintf(lead, sizeof lead, "%-20s  %s", when, local);
    put_block(&agenda->page, (struct block){ NULL, lead, job });
}

static void put_others(struct agenda *agenda)
{
    put_heading(&agenda->page, "Not in this span");
    for (uint64_t i = 0; i < agenda->entries.count; i++)
        if (!agenda->entries.all[i].at_boot && !agenda->fires[i])
            put_absent(agenda, i);
}

static int print_agenda(struct agenda *agenda, const char *name, const struct arguments *arguments)
{
    int status = read_good_table(name, arguments->rules, &agenda->table);
    if (status != DONE)
        return status;
    read_entries(&agenda->table, &agenda->entries);
    put_title(agenda, name, arguments->values[PAGE] != NULL);
    put_often(agenda);
    put_days(agenda);
    put_boot(agenda);
    put_others(agenda);
    if (agenda->entries.count == 0) {
        put_heading(&agenda->page, "");
        put_block(&agenda->page, (struct block){ NULL, "", "The table has no entries." });
    }
    return flush_output(DONE);
}

static int run(const struct arguments *arguments)
{
    static struct agenda agenda;
    struct minutes from, to;
    if (arguments->count != 3)
        return misuse("a file and two dates are needed: FILE FROM TO");
    if (!take_date(arguments->operands[1], &from) || !take_date(arguments->operands[2], &to))
        return FAILED;
    if (to.last < from.first)
        return misuse("TO is before FROM: %s is before %s", arguments->operands[2], arguments->operands[1]);
    agenda.from = from.first;
    agenda.to = to.last;
    agenda.is_local = arguments->values[LOCAL] != NULL;
    return print_agenda(&agenda, arguments->operands[0], arguments);
}

const struct command agenda_command = {
    "agenda",
    "FILE FROM TO",
    "show what a crontab will run, day by day, for a person",
    "Prints what will fire from FROM up to TO, both included, in 72 columns: first the entries that fire\n"
    "more than four times a day, once each, then the others day by day, those that fire at boot, and those\n"
    "that don't fire in that time. Dates are as 2026-11-15, which is the whole day, or 2026-11-15T21:30,\n"
    "and all times are UTC.\n" READER_STATUSES,
    ALL_TABLES,
    OPTIONS,
    run,
};
