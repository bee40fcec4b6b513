/*
 * The daemon of a site, to copy: the whole loop, with the real clock, sleep, a crontab that changes, and a log. For POSIX.
 *
 *     site_daemon [-s] [-w] [-j N] [-c CLOCK] FILE
 *
 * With -s FILE is a system table, with -w it is in the wrapping dialect. At most N jobs start in a minute, 1 without -j. On SIGHUP
 * it reads FILE again and keeps its queue. If the table has become bad, that is logged, and the old table stays in force. SIGTERM
 * and SIGINT end the daemon. The log is standard output. The site has to write only one function, start_job.
 *
 * The daemon wakes every minute and announces every minute that passed, by a clock that nobody can set. If the clock was set, it
 * then announces what the clock shows. So a step of up to 2:59 hours, at any moment, loses no job with a set time of the day.
 *
 * -c is for tests: CLOCK is a file or a pipe that replaces both clocks, and at its end the daemon ends. A line has the seconds that
 * both clocks show, as 1794777600 5000; the daemon ignores lines from before its wake-up time. Or a line has only a minute, which
 * wakes the daemon: the clock went on to it if it is at most 15 minutes later, and otherwise it was set.
 */

#define _POSIX_C_SOURCE 200809L
#include <fcntl.h>
#include <inttypes.h>
#include <signal.h>
#include <stdbool.h>
#include <stdint.h>
#include <stdio.h>
#include <stdlib.h>
#include <string.h>
#include <sys/select.h>
#include <time.h>
#include <unistd.h>

#include "eremothyn.h"
#include "log.h"
#include "table_file.h"

/*
 * After a late wake-up, requests are made for only so many of the last minutes that passed. This bounds how many jobs start at
 * once.
 */
enum { LATE_MOST = 15 };

/* A clock that nobody can set. The first goes on while the machine is suspended; on Linux the second doesn't. */
#ifdef CLOCK_BOOTTIME
#define STEADY CLOCK_BOOTTIME
#else
#define STEADY CLOCK_MONOTONIC
#endif

/* What the wall clock and the steady clock show, in seconds. */
struct moment {
    int64_t wall, steady;
};

struct site {
    const char *name;
    struct table_file *table;
    uint64_t kind, dialect, pace;
    uint8_t queue[EREMOTHYN_ROOM(EREMOTHYN_MAX_ENTRIES)];
    uint64_t waiting;                      /* how many jobs are queued */
    uint64_t since[EREMOTHYN_MAX_ENTRIES]; /* and since which minute, the front first */
    uint64_t minute;                       /* the last one that was announced */
    struct moment then, now;               /* when that was, and the last look at the clocks */
    int clock;                             /* -1 for the real clocks */
};

/* The first arguments of every call. */
#define TABLE(site) (site)->table->bytes, (site)->table->length, (site)->kind, (site)->dialect

static volatile sig_atomic_t shall_reload, shall_end;

static void on_signal(int signal)
{
    shall_reload = shall_reload || signal == SIGHUP;
    shall_end = shall_end || signal != SIGHUP;
}

/* Whether an answer is a refusal, which is logged. None is expected for a good table and a clock on the calendar. */
static bool is_refused(const struct site *site, const char *call, uint64_t answer)
{
    if (EREMOTHYN_IS_REFUSED(answer)) {
        print_date(site->minute);
        printf("  %s: refused %" PRIu64 ": %s\n", call, EREMOTHYN_REFUSAL(answer), eremothyn_words(EREMOTHYN_REFUSAL(answer)));
    }
    return EREMOTHYN_IS_REFUSED(answer);
}

/*
 * ======== The site's own part: start a job here. ========
 *
 * A site forks and becomes the user (eremothyn_user_offset and the five calls like it). It puts the settings before the entry into
 * the environment, where later ones replace earlier ones. Then it hands the shell line to SHELL, and the input to its standard
 * input; there is no input if its length is EREMOTHYN_NO_INPUT. Here all of this is written to the log.
 */
static void start_job(const struct site *site, uint64_t entry, const uint8_t *shell, uint64_t shell_length, const uint8_t *input,
                      uint64_t input_length)
{
    const uint8_t *table = site->table->bytes;
    print_text(shell, shell_length);
    if (input_length != EREMOTHYN_NO_INPUT) {
        fputs(" input ", stdout);
        print_text(input, input_length);
    }
    putchar('\n');
    uint64_t end = eremothyn_entry_line(TABLE(site), entry);
    uint64_t line = eremothyn_next_setting(TABLE(site), 1);
    /* After the last setting the answer is a refusal, which is greater than any line. */
    for (; line < end; line = eremothyn_next_setting(TABLE(site), line + 1)) {
        fputs("                      with ", stdout);
        print_text(table + eremothyn_setting_name_offset(TABLE(site), line), eremothyn_setting_name_length(TABLE(site), line));
        fputs(" = ", stdout);
        print_text(table + eremothyn_setting_value_offset(TABLE(site), line), eremothyn_setting_value_length(TABLE(site), line));
        putchar('\n');
    }
}

/* Takes the job at the front of the queue. Returns whether there was one. */
static bool take_job(struct site *site)
{
    uint8_t shell[EREMOTHYN_MAX_LINE], input[EREMOTHYN_MAX_LINE];
    uint64_t entry = eremothyn_queue_pop(TABLE(site), site->queue, sizeof site->queue);
    if (entry == EREMOTHYN_NOTHING_WAITS || is_refused(site, "queue_pop", entry))
        return false;
    print_date(site->minute);
    printf("  line %" PRIu64 " after ", eremothyn_entry_line(TABLE(site), entry));
    printf("%" PRIu64 " min: ", site->minute - site->since[0]);
    memmove(site->since, site->since + 1, --site->waiting * sizeof site->since[0]);
    uint64_t length = eremothyn_split_command(TABLE(site), entry, shell, sizeof shell, input, sizeof input);
    start_job(site, entry, shell, length, input, eremothyn_stdin_length(TABLE(site), entry));
    return true;
}

/* One minute: entries that are due join the queue. Then jobs are taken from its front, as many as the pace allows. */
static void live(struct site *site, uint64_t minute, uint64_t pace)
{
    site->minute = minute;
    uint64_t joined = eremothyn_queue_tick(TABLE(site), site->queue, sizeof site->queue, minute);
    if (!is_refused(site, "queue_tick", joined))
        while (joined-- > 0)
            site->since[site->waiting++] = minute;
    for (uint64_t taken = 0; taken < pace && take_job(site); taken++)
        ;
}

/* The clock was set: only the minute that it shows is announced. For queued jobs no time has passed. */
static void live_after_step(struct site *site, uint64_t minute)
{
    print_date(minute);
    printf("  the clock jumped by %" PRId64 " min\n", (int64_t)(minute - site->minute));
    for (uint64_t i = 0; i < site->waiting; i++)
        site->since[i] += minute - site->minute;
    live(site, minute, site->pace);
}

/*
 * Announces each minute that really passed. Then, if the clock was set by a minute or more, announces what it shows. So the queue's
 * mark is where the clock would be, and only the step is measured from it. A smaller change is no step, and no minute is announced
 * twice.
 */
static void live_up_to_now(struct site *site)
{
    int64_t unset = site->then.wall + (site->now.steady - site->then.steady), step = site->now.wall - unset;
    bool was_set = step <= -60 || step >= 60;
    uint64_t shown = (uint64_t)site->now.wall / 60, last = was_set ? (uint64_t)unset / 60 : shown;
    if (!was_set && last <= site->minute)
        return;
    while (site->minute < last)
        live(site, site->minute + 1, last - site->minute <= LATE_MOST ? site->pace : 0);
    if (was_set)
        live_after_step(site, shown);
    site->then = site->now;
}

static uint64_t reloaded(const struct site *site, const struct table_file *table, uint8_t *queue)
{
    return eremothyn_queue_reload(site->table->bytes, site->table->length, table->bytes, table->length, site->kind, site->dialect,
                                  queue, sizeof site->queue);
}

/*
 * Keeps the times of the jobs that stay queued. The front of the queue stays if the queue without it is another queue after the
 * reload. A job is dropped if its new entry is queued already. If two neighbours become one entry, the later one's time is kept.
 */
static void keep_times(struct site *site, const struct table_file *table)
{
    static uint8_t rest[sizeof site->queue], copy[sizeof site->queue];
    bool queued[EREMOTHYN_MAX_ENTRIES] = { false };
    uint64_t kept = 0, stay = 0, front = EREMOTHYN_NOTHING_WAITS;
    memcpy(rest, site->queue, sizeof rest);
    for (uint64_t place = 0; place <= site->waiting; place++) {
        memcpy(copy, rest, sizeof copy);
        uint64_t later = reloaded(site, table, copy);
        uint64_t next = eremothyn_queue_entry(table->bytes, table->length, site->kind, site->dialect, copy, sizeof copy, 0);
        if (place > 0 && (later != stay || next != front) && !queued[front]) {
            queued[front] = true;
            site->since[kept++] = site->since[place - 1];
        }
        stay = later;
        front = next;
        eremothyn_queue_pop(TABLE(site), rest, sizeof rest);
    }
}

/* Reads the file again, into the other of two tables. If it is bad, the old table stays in force. */
static void reload(struct site *site, struct table_file *tables)
{
    struct table_file *other = site->table == &tables[0] ? &tables[1] : &tables[0];
    print_date(site->minute);
    fputs("  reload: ", stdout);
    if (read_good_table(site->name, other, site->kind, site->dialect, stdout) != 0)
        return;
    keep_times(site, other);
    uint64_t waiting = reloaded(site, other, site->queue);
    printf("%" PRIu64 " of %" PRIu64 " wait on\n", waiting, site->waiting);
    site->waiting = waiting;
    site->table = other;
}

/*
 * When to wake, by the steady clock: when the wall clock shows the next minute, after a minute at most; at once if that minute has
 * come.
 */
static int64_t wake_time(const struct site *site)
{
    int64_t rest = 60 * ((int64_t)site->minute + 1) - site->now.wall;
    return site->now.steady + (rest < 0 ? 0 : rest > 60 ? 60 : rest);
}

static void look(struct site *site)
{
    struct timespec wall, steady;
    clock_gettime(CLOCK_REALTIME, &wall);
    clock_gettime(STEADY, &steady);
    site->now = (struct moment){ wall.tv_sec, steady.tv_sec };
}

/* Reads a byte of a test's clock. Returns whether it ends a line that wakes the daemon. */
static bool read_clock(struct site *site, int64_t wake)
{
    static char line[64];
    static size_t length;
    int64_t first, second;
    if (read(site->clock, line + length, 1) != 1)
        shall_end = 1;
    if (shall_end || line[length] != '\n') {
        length += length < sizeof line - 1;
        return false;
    }
    line[length] = '\0';
    length = 0;
    if (sscanf(line, "%" SCNd64 "%" SCNd64, &first, &second) == 2) {
        site->now = (struct moment){ first, second };
        return second >= wake;
    }
    int64_t by = 60 * first - site->now.wall;
    site->now.wall += by;
    site->now.steady += by >= 0 && by <= 60 * LATE_MOST ? by : 0;
    return true;
}

/* Sleeps until a time of the steady clock or a signal, and looks at the clocks. Signals are let in only here. */
static void sleep_until(struct site *site, int64_t wake, const sigset_t *let_in)
{
    fd_set files;
    if (site->clock < 0) {
        look(site);
        struct timespec rest = { wake > site->now.steady ? (time_t)(wake - site->now.steady) : 0, 0 };
        pselect(0, NULL, NULL, NULL, &rest, let_in);
        look(site);
    }
    while (site->clock >= 0 && !shall_end) {
        FD_ZERO(&files);
        FD_SET(site->clock, &files);
        if (pselect(site->clock + 1, &files, NULL, NULL, NULL, let_in) < 0 || read_clock(site, wake))
            break;
    }
}

/* The loop: from the first minute, with the @reboot jobs, to the signal that ends it. */
static void run(struct site *site, struct table_file *tables, const sigset_t *let_in)
{
    sleep_until(site, 0, let_in);
    site->then = site->now;
    site->minute = (uint64_t)site->now.wall / 60;
    site->waiting = eremothyn_queue_init(TABLE(site), site->queue, sizeof site->queue);
    for (uint64_t i = 0; i < site->waiting; i++)
        site->since[i] = site->minute;
    print_date(site->minute);
    printf("  start: %" PRIu64 " wait\n", site->waiting);
    live(site, site->minute, site->pace);
    while (!shall_end) {
        sleep_until(site, wake_time(site), let_in);
        if (shall_reload)
            reload(site, tables);
        shall_reload = 0;
        if (!shall_end)
            live_up_to_now(site);
    }
    print_date(site->minute);
    printf("  end: %" PRIu64 " wait", site->waiting);
    for (uint64_t place = 0; place < site->waiting; place++) {
        uint64_t entry = eremothyn_queue_entry(TABLE(site), site->queue, sizeof site->queue, place);
        printf("%s%" PRIu64, place == 0 ? ", lines " : " ", eremothyn_entry_line(TABLE(site), entry));
    }
    putchar('\n');
}

/* Handles a signal, but lets it in only while the daemon sleeps. */
static void take_signal(int signal)
{
    struct sigaction action = { .sa_handler = on_signal };
    sigset_t held;
    sigemptyset(&held);
    sigaddset(&held, signal);
    sigaction(signal, &action, NULL);
    sigprocmask(SIG_BLOCK, &held, NULL);
}

int main(int argc, char **argv)
{
    static struct table_file tables[2];
    static struct site site = { .table = tables, .pace = 1, .clock = -1 };
    sigset_t let_in;
    for (int option; (option = getopt(argc, argv, "swj:c:")) != -1;) {
        if (option == 's')
            site.kind = EREMOTHYN_SYSTEM_TABLE;
        else if (option == 'w')
            site.dialect = EREMOTHYN_WRAPPING;
        else if (option == 'j')
            site.pace = strtoull(optarg, NULL, 10);
        else if (option != 'c' || (site.clock = open(optarg, O_RDONLY)) < 0)
            site.pace = 0;
    }
    if (optind != argc - 1 || site.pace == 0) {
        fputs("usage: site_daemon [-s] [-w] [-j N] [-c CLOCK] FILE, N from 1, CLOCK a file or a pipe\n", stderr);
        return 2;
    }
    setvbuf(stdout, NULL, _IOLBF, 0);
    sigprocmask(SIG_BLOCK, NULL, &let_in);
    take_signal(SIGHUP);
    take_signal(SIGTERM);
    take_signal(SIGINT);
    site.name = argv[optind];
    int status = read_good_table(site.name, site.table, site.kind, site.dialect, stderr);
    if (status == 0)
        run(&site, tables, &let_in);
    return fflush(stdout) != 0 || ferror(stdout) ? 2 : status;
}
