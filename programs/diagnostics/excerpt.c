/* A line of a table for a diagnostic, and texts for messages. */

#include <stdbool.h>
#include <string.h>

#include "diagnostics/excerpt.h"

/* In a line that is cut: how many columns come before the position, and how many dots are at a cut end. */
enum { COLUMNS_BEFORE = 30, DOTS = 3 };

/* Some columns of a line: the first, and the one after the last. */
struct window {
    uint64_t from;
    uint64_t to;
};

/* The column, from 0, of the character that has the byte at an offset. After the last character it is the next column. */
static uint64_t column_of(struct slice text, uint64_t offset)
{
    uint64_t column = 0;
    for (uint64_t at = 0; at < text.length; column++) {
        at += first_character(slice_from(text, at));
        if (at > offset)
            break;
    }
    return column;
}

/* Copies some columns of a text, with dots where it is cut. */
static void copy_window(char *to, struct slice text, struct window window, uint64_t columns)
{
    uint64_t column = 0;
    for (uint64_t at = 0; at < text.length && column < window.to; column++) {
        uint64_t length = first_character(slice_from(text, at));
        bool is_dot = (window.from > 0 && column < window.from + DOTS) || (window.to < columns && column >= window.to - DOTS);
        if (column >= window.from && is_dot)
            *to++ = '.';
        else if (column >= window.from)
            to = show_character(to, slice_from(text, at), length);
        at += length;
    }
    *to = '\0';
}

/* The columns to show, around one of them. */
static struct window window_around(uint64_t column, uint64_t columns)
{
    if (columns <= EXCERPT_COLUMNS)
        return (struct window){ 0, columns };
    uint64_t from = column > COLUMNS_BEFORE ? column - COLUMNS_BEFORE : 0;
    if (from > columns - EXCERPT_COLUMNS)
        from = columns - EXCERPT_COLUMNS;
    return (struct window){ from, from + EXCERPT_COLUMNS };
}

static void fill(char *to, char byte, uint64_t count)
{
    memset(to, byte, count);
    to[count] = '\0';
}

void make_excerpt(struct slice line, uint64_t at, uint64_t width, struct excerpt *excerpt)
{
    uint64_t first = column_of(line, at);
    uint64_t end = width > 1 ? column_of(line, at + width - 1) + 1 : first + 1;
    uint64_t columns = column_of(line, line.length);
    if (columns < end)
        columns = end;
    struct window window = window_around(first, columns);
    if (end > window.to)
        end = window.to;
    copy_window(excerpt->line, line, window, columns);
    fill(excerpt->before, ' ', first - window.from);
    fill(excerpt->caret, '~', end - first);
    excerpt->caret[0] = '^';
}

struct quoted quote(struct slice text)
{
    struct quoted quoted;
    uint64_t columns = column_of(text, text.length);
    struct window window = { 0, columns < QUOTED_COLUMNS ? columns : QUOTED_COLUMNS };
    copy_window(quoted.text, text, window, columns);
    return quoted;
}
