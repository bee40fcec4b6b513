/*
 * How much stack each call takes: it runs on its own stack, filled with a pattern, and the bytes that have changed were used.
 * Prints a line for each call: its name, and the most bytes that it used over all tables, full ones included.
 */
#define _XOPEN_SOURCE 700
#include <eremothyn.h>
#include <stdio.h>
#include <string.h>
#include <ucontext.h>

enum { STACK = 1 << 20, PATTERN = 0xA5, ROOM = 8 * EREMOTHYN_MAX_ENTRIES + 64, PLACES = 4096 };

static uint8_t stack[STACK];
static uint8_t room[ROOM], shell[EREMOTHYN_MAX_LINE], input[EREMOTHYN_MAX_LINE];
static uint8_t table[EREMOTHYN_MAX_TABLE], text[EREMOTHYN_MAX_TABLE];
static uint8_t records[EREMOTHYN_MAX_COMPILED], compiled[EREMOTHYN_MAX_COMPILED];
static uint32_t minutes[PLACES];
static uint16_t entries[PLACES];
static size_t length, records_length;
static uint64_t kind, dialect;

/* A function that makes a call with these arguments. */
#define CALL(name, ...) \
    static void name(void) \
    { \
        eremothyn_##name(__VA_ARGS__); \
    }

CALL(check, table, length, kind, dialect)
CALL(fault_line, table, length, kind, dialect)
CALL(fault_column, table, length, kind, dialect)
CALL(due, table, length, kind, dialect, 511, 0)
CALL(next, table, length, kind, dialect, 511, 0)
/* The minutes of a day: all entries fire again and again. */
CALL(firings, table, length, kind, dialect, 511, 0, 1440, minutes, PLACES)
CALL(merged_firings, table, length, kind, dialect, 0, 1440, minutes, PLACES, entries, PLACES)
CALL(entry_line, table, length, kind, dialect, 511)
CALL(command_offset, table, length, kind, dialect, 511)
CALL(next_setting, table, length, kind, dialect, 1)
CALL(stdin_length, table, length, kind, dialect, 511)
CALL(split_command, table, length, kind, dialect, 511, shell, sizeof shell, input, sizeof input)
CALL(user_offset, table, length, kind, dialect, 511)
CALL(setting_value_length, table, length, kind, dialect, 1)
CALL(normal_form, table, length, dialect, text, sizeof text)
CALL(compile, table, length, dialect, compiled, sizeof compiled)
CALL(decompile, records, records_length, text, sizeof text)
CALL(record_fault, records, records_length)
CALL(queue_init, table, length, kind, dialect, room, sizeof room)
/* The first minute is judged by itself, the second catches up. */
static void queue_tick(void)
{
    eremothyn_queue_tick(table, length, kind, dialect, room, sizeof room, 0);
    eremothyn_queue_tick(table, length, kind, dialect, room, sizeof room, 180);
}
CALL(queue_pop, table, length, kind, dialect, room, sizeof room)
CALL(queue_entry, table, length, kind, dialect, room, sizeof room, 0)
/* All entries are queued, and all stay. */
static void queue_reload(void)
{
    eremothyn_queue_init(table, length, kind, dialect, room, sizeof room);
    eremothyn_queue_tick(table, length, kind, dialect, room, sizeof room, 0);
    eremothyn_queue_reload(table, length, table, length, kind, dialect, room, sizeof room);
}
CALL(date, 15863040, entries, PLACES)
CALL(minute_of_date, 2000, 2, 29, 0, 0)
CALL(year, 15863040)
static void nothing(void)
{
}

static const struct call {
    const char *name;
    void (*make)(void);
} calls[] = {
    { "check", check },
    { "fault_line", fault_line },
    { "fault_column", fault_column },
    { "due", due },
    { "next", next },
    { "firings", firings },
    { "merged_firings", merged_firings },
    { "entry_line", entry_line },
    { "command_offset", command_offset },
    { "next_setting", next_setting },
    { "stdin_length", stdin_length },
    { "split_command", split_command },
    { "user_offset", user_offset },
    { "setting_value_length", setting_value_length },
    { "normal_form", normal_form },
    { "compile", compile },
    { "decompile", decompile },
    { "record_fault", record_fault },
    { "queue_init", queue_init },
    { "queue_tick", queue_tick },
    { "queue_pop", queue_pop },
    { "queue_entry", queue_entry },
    { "queue_reload", queue_reload },
    { "date", date },
    { "minute_of_date", minute_of_date },
    { "year", year },
};

enum { CALLS = sizeof calls / sizeof *calls };

/* The bytes of stack that a call uses, with what it takes to start it. */
static size_t touched(void (*make)(void))
{
    ucontext_t here, there;
    memset(stack, PATTERN, sizeof stack);
    getcontext(&there);
    there.uc_stack.ss_sp = stack;
    there.uc_stack.ss_size = sizeof stack;
    there.uc_link = &here;
    makecontext(&there, make, 0);
    swapcontext(&here, &there);
    size_t untouched = 0;
    while (untouched < sizeof stack && stack[untouched] == PATTERN)
        untouched++;
    return sizeof stack - untouched;
}

/* Fills the table with so many copies of a line, or as many as fit. Compiles it; if it is refused, its records are its bytes. */
static void fill(const char *line, size_t most)
{
    size_t size = strlen(line);
    for (length = 0; most > 0 && length + size <= sizeof table; most--) {
        memcpy(table + length, line, size);
        length += size;
    }
    uint64_t answer = eremothyn_compile(table, length, dialect, records, sizeof records);
    records_length = EREMOTHYN_IS_REFUSED(answer) ? length : answer;
    if (EREMOTHYN_IS_REFUSED(answer))
        memcpy(records, table, length);
}

static void measure(size_t most[CALLS])
{
    size_t start = touched(nothing);
    for (size_t i = 0; i < CALLS; i++) {
        size_t bytes = touched(calls[i].make) - start;
        if (most[i] < bytes)
            most[i] = bytes;
    }
}

int main(void)
{
    static const char *const lines[] = {
        "* * * * * u:g/c dome check%now\n",
        "@reboot u heaters on\n",
        "50-9/3,40-20 22-5/2 25-5 nov-2 fri-sun u a%b\n",
        "1,4-9,11-59/2 0-5,7,9-23/3 1-15/2,20,25-31 1-6,8-12/2 0-2,mon-sun/2 u a\\%b%c\n",
        "NAME = \"a value\"\n",
        "CRON_TZ = \"-03:30\"\n",
        "# a comment\n",
        "60 * * * * a\n",
        "x",
    };
    size_t most[CALLS] = { 0 };
    for (uint64_t rules = 0; rules < 4; rules++) {
        kind = rules % 2;
        dialect = rules / 2;
        for (size_t i = 0; i < sizeof lines / sizeof *lines; i++) {
            fill(lines[i], EREMOTHYN_MAX_ENTRIES);
            measure(most);
            fill(lines[i], EREMOTHYN_MAX_TABLE);
            measure(most);
        }
    }
    for (size_t i = 0; i < CALLS; i++)
        printf("%s %zu\n", calls[i].name, most[i]);
    return 0;
}
