/* eremothyn explain [-s] [--dialect NAME] [--from DATE] FILE: what each entry means, in plain words. */

#include <inttypes.h>
#include <stdio.h>

#include "agenda/date.h"
#include "agenda/explain.h"
#include "agenda/firing.h"
#include "agenda/job.h"
#include "agenda/words.h"
#include "arguments/arguments.h"
#include "arguments/message.h"
#include "diagnostics/fault.h"
#include "tables/character.h"
#include "tables/entry.h"
#include "tables/field.h"

enum { FROM };
static const struct option OPTIONS[] = {
    [FROM] = { 0, "from", "DATE", "next firings from 2026-11-15 or 2026-11-15T21:30 on, and not from now" },
    { NO_OPTION },
};

/* Prints when an entry fires next, or that it never does. Boot has no date. */
static void print_next(const struct file *table, uint64_t number, const struct entry *entry, uint64_t from)
{
    if (entry->at_boot)
        return;
    uint64_t next = first_firing(table, number, from);
    fputs("    ", stdout);
    if (EREMOTHYN_IS_REFUSED(next)) {
        fputs(eremothyn_words(EREMOTHYN_REFUSAL(next)), stdout);
    } else {
        fputs("next ", stdout);
        print_minute(stdout, next);
        if (entry->has_clock) {
            fputs(", by its clock ", stdout);
            print_minute(stdout, next + (uint64_t)(int64_t)entry->offset);
        }
    }
    putchar('\n');
}

/* Prints what the job reads on standard input, if it does, line by line. */
static void print_input(const struct file *table, const struct entry *entry)
{
    uint8_t bytes[EREMOTHYN_MAX_LINE];
    struct slice rest;
    if (!input_of(table, entry, bytes, &rest))
        return;
    do {
        char shown[MAX_JOB];
        struct slice line = cut_at('\n', rest, &rest);
        show_text(shown, line);
        printf("    <%s%s\n", line.length > 0 ? " " : "", shown);
    } while (rest.start != NULL);
}

static void explain_entry(const struct file *table, uint64_t number, const struct entry *entry, uint64_t from)
{
    char words[MAX_WORDS];
    char clock[CLOCK_WORDS];
    char job[MAX_JOB];
    words_of(entry, words);
    clock_of(entry, clock);
    job_of(table, entry, job);
    printf("line %" PRIu64 ": %s", entry->line, words);
    if (entry->has_clock && !entry->at_boot)
        printf(", by the clock %s", clock);
    putchar('\n');
    print_next(table, number, entry, from);
    printf("    %s\n", job);
    print_input(table, entry);
}

static int explain(const char *name, uint64_t from, struct rules rules)
{
    static struct file table;
    static struct entries entries;
    int status = read_good_table(name, rules, &table);
    if (status != DONE)
        return status;
    read_entries(&table, &entries);
    for (uint64_t number = 0; number < entries.count; number++)
        explain_entry(&table, number, &entries.all[number], from);
    if (entries.count == 0)
        printf("%s: no entries\n", name);
    return flush_output(DONE);
}

static int run(const struct arguments *arguments)
{
    uint64_t from;
    if (arguments->count != 1)
        return misuse(arguments->count == 0 ? "no file is named" : "more than one file is named");
    if (!take_start(arguments->values[FROM], &from))
        return FAILED;
    return explain(arguments->operands[0], from, arguments->rules);
}

const struct command explain_command = {
    "explain",
    "FILE",
    "say in plain words when each entry of a crontab fires",
    "Prints for each entry the number of its line and when it fires, its next firing in UTC, its command,\n"
    "and behind < what the command reads. Two spellings of one entry have the same words.\n" READER_STATUSES,
    ALL_TABLES,
    OPTIONS,
    run,
};
