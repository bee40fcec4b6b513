/* eremothyn next [-s] [--dialect NAME] [--from DATE] [--local] FILE [N]: the next firings of a crontab, a line each. */

#include <inttypes.h>
#include <stdio.h>
#include <stdlib.h>
#include <string.h>

#include "agenda/date.h"
#include "agenda/firing.h"
#include "agenda/job.h"
#include "agenda/next.h"
#include "arguments/arguments.h"
#include "arguments/message.h"
#include "diagnostics/fault.h"

enum { FROM, LOCAL };
static const struct option OPTIONS[] = {
    [FROM] = { 0, "from", "DATE", "firings from 2026-11-15 or 2026-11-15T21:30 on, and not from now" },
    [LOCAL] = { 0, "local", NULL, "show each entry's own hours, too, where CRON_TZ is set" },
    { NO_OPTION },
};

enum { USUAL = 10, MAX_COUNT = 100000 };

static struct file table;
static struct entries entries;

/* The number of digits in the last entry's line number. */
static int line_digits(void)
{
    return snprintf(NULL, 0, "%" PRIu64, entries.all[entries.count - 1].line);
}

static void print_firing(struct firing firing, bool is_local, int digits)
{
    const struct entry *entry = &entries.all[firing.entry];
    char local[MAX_LOCAL] = "";
    char job[MAX_JOB];
    job_of(&table, entry, job);
    if (is_local)
        local_of(entry, firing.minute, local);
    print_minute(stdout, firing.minute);
    printf("  line %*" PRIu64 "  %s%s\n", digits, entry->line, local, job);
}

static bool is_boot_alone(void)
{
    for (uint64_t i = 0; i < entries.count; i++)
        if (!entries.all[i].at_boot)
            return false;
    return true;
}

/* Reports why there is nothing to print. This is no failure. */
static int print_none(const char *name, uint64_t from)
{
    char why[64] = "nothing fires any more before the year 10000";
    if (entries.count == 0) {
        strcpy(why, "no entries");
    } else if (is_boot_alone()) {
        strcpy(why, "all entries fire at boot only");
    } else if (from <= EREMOTHYN_LAST_MINUTE) {
        strcpy(why, "nothing fires from ");
        write_minute(why + strlen(why), from);
        strcat(why, " on");
    }
    fail_for(name, why);
    return DONE;
}

static int print_next(const char *name, const struct arguments *arguments, uint64_t from, uint64_t most)
{
    static struct firings firings;
    struct firing firing;
    uint64_t printed = 0;
    int status = read_good_table(name, arguments->rules, &table);
    if (status != DONE)
        return status;
    read_entries(&table, &entries);
    start_firings(&table, from, EREMOTHYN_LAST_MINUTE, &firings);
    while (printed < most && next_firing(&firings, &firing) && !ferror(stdout)) {
        print_firing(firing, arguments->values[LOCAL] != NULL, line_digits());
        printed++;
    }
    return flush_output(printed > 0 ? DONE : print_none(name, from));
}

/* Reads how many firings are wanted: only digits. */
static bool take_count(const char *text, uint64_t *count)
{
    size_t digits = strspn(text, "0123456789");
    *count = digits > 0 && text[digits] == '\0' ? strtoull(text, NULL, 10) : 0;
    if (*count >= 1 && *count <= MAX_COUNT)
        return true;
    misuse("'%s' is no number of firings from 1 to %d", text, (int)MAX_COUNT);
    return false;
}

static int run(const struct arguments *arguments)
{
    uint64_t from, count = USUAL;
    if (arguments->count == 0)
        return misuse("no file is named");
    if (arguments->count > 2)
        return misuse("more than a file and a number are given");
    if (arguments->count == 2 && !take_count(arguments->operands[1], &count))
        return FAILED;
    if (!take_start(arguments->values[FROM], &from))
        return FAILED;
    return print_next(arguments->operands[0], arguments, from, count);
}

const struct command next_command = {
    "next",
    "FILE [N]",
    "list the next firings of a crontab",
    "Prints the next N firings of FILE, 10 where N isn't given and 100000 at most, a line each: the date\n"
    "and the time in UTC, the number of the entry's line, and its command. What fires in the minute that\n"
    "the clock shows has begun, and is left out; what fires in the minute of --from isn't.\n" READER_STATUSES,
    ALL_TABLES,
    OPTIONS,
    run,
};
