/*
 * A demo daemon that runs through the minutes between given dates. It announces each minute to the queue and takes some jobs.
 *
 *     daemon [-s] [-w] FILE PACE FROM TO [FROM TO]...
 *
 * With -s the file is a system table, like /etc/crontab, and the user of each job is shown. With -w it is in the wrapping dialect,
 * where the hours 22-3 go over midnight. PACE is how many jobs may start in a minute. FROM and TO are dates in UTC, like
 * 1970-01-01T00:00. With more than one pair the clock jumps, forward or back, and the queue stays as it is. If CRON_TZ gives an
 * entry its own clock, that clock's time is shown after the date in UTC.
 *
 * A real daemon takes the minute from the clock, time(NULL) / 60, which is UTC. It sleeps until the clock shows another minute,
 * announces that, and starts the jobs that this program only shows. If it is late, it first announces each minute that passed, in
 * order, so no job is missed. If the clock was set, it announces the minutes that really passed, and then the minute that the clock
 * shows. What the queue does then depends on its mark: the minute up to which fixed jobs, those with set times of the day, have
 * been judged.
 *
 *   - Up to 180 minutes after the mark: fixed jobs are caught up, once. The others come at their next time.
 *   - Later, for example from 1970: nothing is caught up.
 *   - Less than 180 minutes before the mark: fixed jobs have run, and don't run again until the clock is past the mark. The others
 *     go by the clock, so the daemon keeps announcing.
 *   - 180 minutes or more before the mark: all jobs go by the clock.
 *
 * site_daemon.c does all this with the real clock, and keeps its queue when the crontab changes.
 */

#include <inttypes.h>
#include <stdbool.h>
#include <stdint.h>
#include <stdio.h>
#include <stdlib.h>
#include <string.h>

#include "eremothyn.h"
#include "log.h"
#include "table_file.h"

enum { DONE = 0, REFUSED = 1, FAILED = 2 };

/* A crontab, its kind and dialect, how many minutes each entry's clock is ahead of UTC, and the queue of jobs. */
struct site {
    struct table_file table;
    uint64_t kind;
    uint64_t dialect;
    int ahead[EREMOTHYN_MAX_ENTRIES];
    uint8_t queue[EREMOTHYN_ROOM(EREMOTHYN_MAX_ENTRIES)];
    uint64_t waiting;
};

/*
 * Returns an answer that isn't a refusal. No refusal is expected here, since the table and the dates were checked before, so one
 * ends this program. A real daemon writes it to its log and goes on; for EREMOTHYN_NOT_A_QUEUE it makes a new queue.
 */
static uint64_t answered(const char *call, uint64_t answer)
{
    if (EREMOTHYN_IS_REFUSED(answer)) {
        fprintf(stderr, "daemon: %s: refused %" PRIu64 ": %s\n", call, EREMOTHYN_REFUSAL(answer),
                eremothyn_words(EREMOTHYN_REFUSAL(answer)));
        exit(REFUSED);
    }
    return answer;
}

/* Prints what an entry's own clock shows at a minute, if that isn't UTC. At the calendar's ends this may be off the calendar. */
static void print_local(const struct site *site, uint64_t entry, uint64_t minute)
{
    int ahead = site->ahead[entry];
    if (ahead == 0)
        return;
    fputs("  local ", stdout);
    /* A minute below 0 becomes a large number. */
    print_date(minute + (uint64_t)ahead);
}

/* A name or a value of a setting. */
struct part {
    const uint8_t *text;
    uint64_t length;
};

static bool is_cron_tz(struct part name)
{
    return name.length == strlen("CRON_TZ") && memcmp(name.text, "CRON_TZ", name.length) == 0;
}

/* The number that two digits mean. */
static int two_digits(const uint8_t *text)
{
    return 10 * (text[0] - '0') + text[1] - '0';
}

/*
 * Sets the clocks of the entries after a CRON_TZ. The table up to its line has as many entries as are before it. Its value is a
 * sign, two digits, a colon and two digits, or the table would have been refused.
 */
static void set_clocks(struct site *site, struct part name, struct part value)
{
    const uint8_t *table = site->table.bytes;
    uint64_t start = (uint64_t)(name.text - table);
    while (start > 0 && table[start - 1] != '\n')
        start--;
    int minutes = 60 * two_digits(value.text + 1) + two_digits(value.text + 4);
    uint64_t entry = answered("check", eremothyn_check(table, start, site->kind, site->dialect));
    for (; entry < EREMOTHYN_MAX_ENTRIES; entry++)
        site->ahead[entry] = value.text[0] == '-' ? -minutes : minutes;
}

/* Prints the settings of a table, and takes its clocks. After the last setting the library answers with a refusal. */
static void take_settings(struct site *site)
{
    const uint8_t *table = site->table.bytes;
    uint64_t length = site->table.length, kind = site->kind, dialect = site->dialect;
    uint64_t line = eremothyn_next_setting(table, length, kind, dialect, 1);
    for (; !EREMOTHYN_IS_REFUSED(line); line = eremothyn_next_setting(table, length, kind, dialect, line + 1)) {
        uint64_t offset = eremothyn_setting_name_offset(table, length, kind, dialect, line);
        uint64_t name_length = eremothyn_setting_name_length(table, length, kind, dialect, line);
        uint64_t value_offset = eremothyn_setting_value_offset(table, length, kind, dialect, line);
        uint64_t value_length = eremothyn_setting_value_length(table, length, kind, dialect, line);
        struct part name = { table + answered("setting", offset), answered("setting", name_length) };
        struct part value = { table + answered("setting", value_offset), answered("setting", value_length) };
        fputs("setting   ", stdout);
        print_text(name.text, name.length);
        fputs(" = ", stdout);
        print_text(value.text, value.length);
        putchar('\n');
        if (is_cron_tz(name))
            set_clocks(site, name, value);
    }
}

/* Prints when an entry fires next. That it fires only at boot, never or no more is also an answer. */
static void print_next(const struct site *site, uint64_t entry, uint64_t minute)
{
    uint64_t next = eremothyn_next(site->table.bytes, site->table.length, site->kind, site->dialect, entry, minute);
    printf("entry %2" PRIu64 "  ", entry);
    switch (EREMOTHYN_IS_REFUSED(next) ? EREMOTHYN_REFUSAL(next) : 0) {
    case EREMOTHYN_AT_BOOT_ONLY:
    case EREMOTHYN_NEVER:
    case EREMOTHYN_PAST_THE_END: puts(eremothyn_words(EREMOTHYN_REFUSAL(next))); return;
    default:
        fputs("next ", stdout);
        print_date(answered("next", next));
        print_local(site, entry, next);
        putchar('\n');
    }
}

/* Prints a part of an entry's user column, from the answers for its offset and length. An absent one isn't shown. */
static void print_part(const struct site *site, const char *name, uint64_t offset, uint64_t length)
{
    if (answered(name, length) == 0)
        return;
    printf("  %s ", name);
    print_text(site->table.bytes + answered(name, offset), length);
}

/* Prints the user that an entry runs as. In a user table all parts are absent: the table's owner runs everything. */
static void print_user(const struct site *site, uint64_t entry)
{
    const uint8_t *table = site->table.bytes;
    uint64_t length = site->table.length, kind = site->kind, dialect = site->dialect;
    print_part(site, "user", eremothyn_user_offset(table, length, kind, dialect, entry),
               eremothyn_user_length(table, length, kind, dialect, entry));
    print_part(site, "group", eremothyn_group_offset(table, length, kind, dialect, entry),
               eremothyn_group_length(table, length, kind, dialect, entry));
    print_part(site, "class", eremothyn_class_offset(table, length, kind, dialect, entry),
               eremothyn_class_length(table, length, kind, dialect, entry));
}

/*
 * Starts a job. A real daemon would become the entry's user, hand the shell line to a shell, and the input to its standard input.
 */
static void start(const struct site *site, uint64_t entry, uint64_t minute)
{
    uint8_t shell[EREMOTHYN_MAX_LINE], input[EREMOTHYN_MAX_LINE];
    const uint8_t *table = site->table.bytes;
    uint64_t length = site->table.length, kind = site->kind, dialect = site->dialect;
    uint64_t shell_length = answered(
        "split_command", eremothyn_split_command(table, length, kind, dialect, entry, shell, sizeof shell, input, sizeof input));
    uint64_t input_length = answered("stdin_length", eremothyn_stdin_length(table, length, kind, dialect, entry));
    print_date(minute);
    printf("  start entry %2" PRIu64 "  ", entry);
    print_text(shell, shell_length);
    print_user(site, entry);
    print_local(site, entry, minute);
    putchar('\n');
    if (input_length != EREMOTHYN_NO_INPUT) {
        printf("%38s  ", "standard input");
        print_text(input, input_length);
        putchar('\n');
    }
}

/* One minute: entries that are due join the queue. Then jobs are taken from its front, as many as the pace allows. */
static void live(struct site *site, uint64_t minute, uint64_t pace)
{
    const uint8_t *table = site->table.bytes;
    uint64_t length = site->table.length, kind = site->kind, dialect = site->dialect;
    uint64_t joined =
        answered("queue_tick", eremothyn_queue_tick(table, length, kind, dialect, site->queue, sizeof site->queue, minute));
    site->waiting += joined;
    if (joined != 0) {
        print_date(minute);
        printf("  %" PRIu64 " joined, %" PRIu64 " wait\n", joined, site->waiting);
    }
    for (uint64_t taken = 0; taken < pace; taken++) {
        uint64_t entry = answered("queue_pop", eremothyn_queue_pop(table, length, kind, dialect, site->queue, sizeof site->queue));
        if (entry == EREMOTHYN_NOTHING_WAITS)
            return;
        site->waiting--;
        start(site, entry, minute);
    }
}

/* Reads the crontab, prints its settings and when its entries fire next, sets their clocks, and makes the queue. */
static int boot(struct site *site, const char *name, uint64_t first)
{
    int status = read_good_table(name, &site->table, site->kind, site->dialect, stderr);
    if (status != DONE)
        return status;
    const uint8_t *table = site->table.bytes;
    uint64_t length = site->table.length, kind = site->kind, dialect = site->dialect;
    uint64_t entries = answered("check", eremothyn_check(table, length, kind, dialect));
    take_settings(site);
    for (uint64_t entry = 0; entry < entries; entry++)
        print_next(site, entry, first);
    site->waiting = answered("queue_init", eremothyn_queue_init(table, length, kind, dialect, site->queue, sizeof site->queue));
    print_date(first);
    printf("  boot, %" PRIu64 " wait\n", site->waiting);
    return DONE;
}

/* Whether a text has a digit wherever a form has 0, and otherwise the form's own characters. */
static bool has_form(const char *text, const char *form)
{
    for (; *form != '\0'; text++, form++)
        if (*form == '0' ? *text < '0' || *text > '9' : *text != *form)
            return false;
    return *text == '\0';
}

static bool read_date(const char *text, uint64_t *minute)
{
    if (!has_form(text, "0000-00-00T00:00"))
        return false;
    uint64_t parts[5];
    static const int starts[5] = { 0, 5, 8, 11, 14 };
    for (int i = 0; i < 5; i++)
        parts[i] = strtoull(text + starts[i], NULL, 10);
    *minute = answered(text, eremothyn_minute_of_date(parts[0], parts[1], parts[2], parts[3], parts[4]));
    return true;
}

/* At most three digits: no table has more entries than 999. */
static bool read_pace(const char *text, uint64_t *pace)
{
    *pace = strtoull(text, NULL, 10);
    return has_form(text, "0") || has_form(text, "00") || has_form(text, "000");
}

/* The minutes of a pair of dates, if the first isn't after the second. */
static bool read_span(char **pair, uint64_t *first, uint64_t *last)
{
    return read_date(pair[0], first) && read_date(pair[1], last) && *first <= *last;
}

static int usage(void)
{
    fputs("usage: daemon [-s] [-w] FILE PACE FROM TO [FROM TO]..., a PACE below 1000, dates as 1970-01-01T00:00, FROM not "
          "after TO; -s for a system table, -w for the wrapping dialect\n",
          stderr);
    return FAILED;
}

/* Takes a word if it is an option. */
static bool take_option(struct site *site, const char *word)
{
    bool is_kind = strcmp(word, "-s") == 0;
    bool is_dialect = strcmp(word, "-w") == 0;
    if (is_kind)
        site->kind = EREMOTHYN_SYSTEM_TABLE;
    if (is_dialect)
        site->dialect = EREMOTHYN_WRAPPING;
    return is_kind || is_dialect;
}

int main(int argc, char **argv)
{
    static struct site site;
    uint64_t pace, first, last;
    site.kind = EREMOTHYN_USER_TABLE;
    site.dialect = EREMOTHYN_RISING;
    for (; argc > 1 && take_option(&site, argv[1]); argc--)
        argv++;
    if (argc < 5 || argc % 2 == 0 || !read_pace(argv[2], &pace))
        return usage();
    for (int i = 3; i < argc; i += 2)
        if (!read_span(argv + i, &first, &last))
            return usage();
    read_date(argv[3], &first);
    int status = boot(&site, argv[1], first);
    for (int i = 3; status == DONE && i < argc; i += 2) {
        read_span(argv + i, &first, &last);
        for (uint64_t minute = first; minute <= last; minute++)
            live(&site, minute, pace);
    }
    if (fflush(stdout) != 0 || ferror(stdout)) {
        fputs("daemon: standard output can't be written\n", stderr);
        return FAILED;
    }
    return status;
}
