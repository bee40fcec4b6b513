/*
 * The % that ends a command for the shell: the first one without a backslash before it. People copy date +%F and printf "%s" from
 * the shell, where % is a byte like any other.
 */

#include <stdbool.h>

#include "diagnostics/percent.h"

/* What comes before an offset of a command. */
struct before {
    uint8_t quote;    /* the quote that is open, or 0 */
    bool has_escaped; /* whether the current word has a \% */
    uint8_t last;     /* the last byte, or 0 */
};

/* Takes a byte, or a backslash and the byte after it. Returns how many. */
static uint64_t take(struct before *before, struct slice rest)
{
    uint8_t byte = rest.start[0];
    before->last = byte;
    if (byte == '\\' && rest.length > 1) {
        before->has_escaped |= rest.start[1] == '%';
        return 2;
    }
    if (byte == before->quote)
        before->quote = 0;
    else if ((byte == '"' || byte == '\'') && before->quote == 0)
        before->quote = byte;
    else if (is_blank(byte) && before->quote == 0)
        before->has_escaped = false;
    return 1;
}

struct slice doubtful_percent(struct slice command)
{
    struct before before = { 0, false, 0 };
    uint64_t at = 0;
    while (at < command.length && command.start[at] != '%')
        at += take(&before, slice_from(command, at));
    bool is_doubtful = before.quote != 0 || before.has_escaped || before.last == '+';
    return at < command.length && is_doubtful ? (struct slice){ command.start + at, 1 } : (struct slice){ command.start, 0 };
}
