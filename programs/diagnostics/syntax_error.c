/* Why a field isn't well formed. The field is read again, element by element, only to find the words. */

#include <stddef.h>

#include "diagnostics/syntax_error.h"
#include "tables/field.h"

enum { MAX_DIGITS = 4 };

/* A number, or a name if the field has names. */
static struct syntax_error error_of_end(int field, struct slice text)
{
    if (is_digits(text))
        return (struct syntax_error){ text.length > MAX_DIGITS ? LONG_NUMBER : NO_SYNTAX_ERROR, text };
    if (!is_letters(text))
        return (struct syntax_error){ UNCLEAR, text };
    if (FIELD[field].names[0] == '\0')
        return (struct syntax_error){ NAME_NOT_HERE, text };
    return (struct syntax_error){ is_name_of(field, text) ? NO_SYNTAX_ERROR : UNKNOWN_NAME, text };
}

/* The text after a slash. If there is none, the whole element is shown. */
static struct syntax_error error_of_step(struct slice step, struct slice whole)
{
    if (step.length == 0)
        return (struct syntax_error){ MISSING_STEP, whole };
    if (is_digits(step))
        return (struct syntax_error){ step.length > MAX_DIGITS ? LONG_NUMBER : NO_SYNTAX_ERROR, step };
    return (struct syntax_error){ is_letters(step) ? NAME_AS_STEP : UNCLEAR, step };
}

/* A range, already cut at its dash. */
static struct syntax_error error_of_range(int field, struct slice whole, struct slice low, struct slice rest)
{
    struct slice step;
    struct slice high = cut_at('/', rest, &step);
    if (low.length == 0 || high.length == 0)
        return (struct syntax_error){ OPEN_RANGE, whole };
    struct syntax_error error = error_of_end(field, low);
    if (error.kind == NO_SYNTAX_ERROR)
        error = error_of_end(field, high);
    if (error.kind == NO_SYNTAX_ERROR && step.start != NULL)
        error = error_of_step(step, whole);
    return error;
}

static struct syntax_error error_of_element(int field, struct slice text)
{
    struct slice rest;
    if (text.length == 0)
        return (struct syntax_error){ EMPTY_ELEMENT, text };
    if (text.start[0] == '*' && (text.length == 1 || text.start[1] == '/'))
        return (struct syntax_error){ STAR_IN_LIST, text };
    struct slice low = cut_at('-', text, &rest);
    if (rest.start != NULL)
        return error_of_range(field, text, low, rest);
    struct slice value = cut_at('/', text, &rest);
    struct syntax_error error = error_of_end(field, value);
    if (error.kind == NO_SYNTAX_ERROR && rest.start != NULL)
        return (struct syntax_error){ LONE_STEP, text };
    return error;
}

/* A field of one element that starts with a star. */
static struct syntax_error error_of_star(struct slice text)
{
    if (text.length > 1 && text.start[1] == '/')
        return error_of_step(slice_from(text, 2), text);
    return (struct syntax_error){ UNCLEAR, text };
}

struct syntax_error syntax_error_of(int field, struct slice text)
{
    struct slice rest;
    struct slice element = cut_at(',', text, &rest);
    if (rest.start == NULL && text.start[0] == '*')
        return error_of_star(text);
    struct syntax_error error = error_of_element(field, element);
    while (error.kind == NO_SYNTAX_ERROR && rest.start != NULL) {
        element = cut_at(',', rest, &rest);
        error = error_of_element(field, element);
    }
    return error.kind != NO_SYNTAX_ERROR ? error : (struct syntax_error){ UNCLEAR, text };
}
