/*
 * The unified diff of a table and its normal text. No search is needed: each line of the table becomes one line of the text or
 * none, and the library says which.
 */

#include <inttypes.h>
#include <stdio.h>

#include "eremothyn.h"
#include "format/diff.h"

/* How many unchanged lines are shown before and after those that change. */
enum { CONTEXT = 3 };

/* A line of the table, and what it becomes: the same, another, or nothing. */
struct change {
    struct slice old;
    struct slice new;
};

static struct change changes[EREMOTHYN_MAX_TABLE];
static uint64_t count;

static void find_changes(const struct file *table, const struct file *text)
{
    static uint8_t line[EREMOTHYN_MAX_LINE + 1];
    const uint8_t *new = text->bytes;
    uint64_t offset = 0;
    for (count = 0; offset < table->length; count++) {
        struct slice old = line_at(table, offset);
        uint64_t length = eremothyn_normal_form(old.start, old.length, table->rules.dialect, line, sizeof line);
        changes[count] = (struct change){ old, { new, length } };
        offset += old.length;
        new += length;
    }
}

static bool stays(uint64_t line)
{
    return is_same_slice(changes[line].old, changes[line].new);
}

/* The first line that changes, from a given one on; the end if there is none. */
static uint64_t next_changed(uint64_t line)
{
    while (line < count && stays(line))
        line++;
    return line;
}

/* The first line that doesn't change. */
static uint64_t next_staying(uint64_t line)
{
    while (line < count && !stays(line))
        line++;
    return line;
}

/* How many lines of the text come from some lines of the table. */
static uint64_t lines_written(uint64_t from, uint64_t to)
{
    uint64_t lines = 0;
    for (; from < to; from++)
        lines += changes[from].new.length > 0;
    return lines;
}

/* Prints a line with its mark. It has a newline: a table that has a normal text ends in one. */
static void print_line(char mark, struct slice line)
{
    if (line.length == 0)
        return;
    putchar(mark);
    fwrite(line.start, 1, line.length, stdout);
}

/* Prints some lines of the table and what they become, after so many lines of the text. */
static void print_hunk(uint64_t from, uint64_t to, uint64_t before)
{
    uint64_t lines = lines_written(from, to);
    printf("@@ -%" PRIu64 ",%" PRIu64 " +%" PRIu64 ",%" PRIu64 " @@\n", from + 1, to - from, before + (lines > 0), lines);
    while (from < to) {
        if (stays(from)) {
            print_line(' ', changes[from++].old);
            continue;
        }
        uint64_t end = next_staying(from);
        for (uint64_t line = from; line < end; line++)
            print_line('-', changes[line].old);
        for (uint64_t line = from; line < end; line++)
            print_line('+', changes[line].new);
        from = end;
    }
}

/* The end of the hunk with a given first change. Changes whose contexts meet are in one hunk. */
static uint64_t end_of_hunk(uint64_t changed)
{
    uint64_t end;
    do {
        end = next_staying(changed);
        changed = next_changed(end);
    } while (changed < count && changed - end <= 2 * CONTEXT);
    return count - end > CONTEXT ? end + CONTEXT : count;
}

void print_diff(const char *name, const struct file *table, const struct file *text)
{
    uint64_t end = 0;
    uint64_t before = 0;
    find_changes(table, text);
    printf("--- %s.orig\n+++ %s\n", name, name);
    for (uint64_t changed = next_changed(0); changed < count; changed = next_changed(end)) {
        uint64_t from = changed - end > CONTEXT ? changed - CONTEXT : end;
        before += lines_written(end, from);
        end = end_of_hunk(changed);
        print_hunk(from, end, before);
        before += lines_written(from, end);
    }
}
