/* The quotes of a setting. */

#include <string.h>

#include "diagnostics/quoting.h"

static bool is_quote(uint8_t byte)
{
    return byte == '"' || byte == '\'';
}

/* The rest of a text after the name or the value in quotes at its start. It starts at NULL if the quotes aren't closed. */
static struct slice past_quotes(struct slice text)
{
    const uint8_t *end = memchr(text.start + 1, text.start[0], text.length - 1);
    if (end == NULL)
        return (struct slice){ NULL, 0 };
    return slice_from(text, (uint64_t)(end + 1 - text.start));
}

static struct slice past_bare_name(struct slice text)
{
    while (text.length > 0 && !is_blank(text.start[0]) && !is_quote(text.start[0]) && text.start[0] != '=')
        text = slice_from(text, 1);
    return text;
}

enum quoting quoting_of(struct slice line)
{
    struct slice rest = without_indent(line);
    bool is_quoted = rest.length > 0 && is_quote(rest.start[0]);
    rest = is_quoted ? past_quotes(rest) : past_bare_name(rest);
    if (rest.start == NULL)
        return QUOTE_OPEN;
    rest = without_indent(rest);
    if (rest.length == 0 || rest.start[0] != '=')
        return QUOTE_CLOSED;
    rest = without_indent(slice_from(rest, 1));
    if (rest.length == 0 || !is_quote(rest.start[0]))
        return QUOTE_CLOSED;
    rest = past_quotes(rest);
    if (rest.start == NULL)
        return QUOTE_OPEN;
    return without_indent(rest).length > 0 ? QUOTE_FOLLOWED : QUOTE_CLOSED;
}
