/* The reason of a fault. The library's own words are used if they say everything. */

#include <inttypes.h>

#include "diagnostics/excerpt.h"
#include "diagnostics/location.h"
#include "diagnostics/reason.h"
#include "diagnostics/syntax_error.h"
#include "tables/field.h"

#define PRINT(words, ...) snprintf(words, MAX_REASON, __VA_ARGS__)

/* What is wrong with a text, for each syntax error. The text comes first. */
static const char *const SYNTAX_ERRORS[] = {
    [STAR_IN_LIST] = "can't be an element of a list",
    [LONE_STEP] = "has a step, but no range",
    [OPEN_RANGE] = "is a range that lacks an end",
    [MISSING_STEP] = "has nothing behind the slash",
    [LONG_NUMBER] = "has too many digits: numbers have one to four",
    [NAME_NOT_HERE] = "is a name, and only numbers may stand here",
    [NAME_AS_STEP] = "is a name, and a step is a number",
};

static void write_malformed(const struct location *location, char words[MAX_REASON])
{
    const struct field *field = &FIELD[location->before];
    struct syntax_error error = syntax_error_of(location->before, location->word);
    struct quoted text = quote(error.kind == UNCLEAR ? location->word : error.text);
    switch (error.kind) {
    case EMPTY_ELEMENT: PRINT(words, "%s: an element of the list is empty", field->name); break;
    case UNKNOWN_NAME: PRINT(words, "%s: unknown name '%s': the names are %s", field->name, text.text, field->words); break;
    case UNCLEAR: PRINT(words, "%s: '%s' is %s", field->name, text.text, eremothyn_words(EREMOTHYN_FIELD_MALFORMED)); break;
    default: PRINT(words, "%s: '%s' %s", field->name, text.text, SYNTAX_ERRORS[error.kind]);
    }
}

/* Whether an end of a range is a number out of a field's limits. Names never are. */
static bool is_outside(struct slice end, int field, uint64_t dialect)
{
    if (!is_digits(end))
        return false;
    uint64_t number = number_of(end);
    return number < FIELD[field].first || number > last_of(field, dialect);
}

/* The first number of an element that is out of limits. */
static struct slice outside(const struct location *location, uint64_t dialect)
{
    struct slice rest, step;
    struct slice low = cut_at('-', location->element, &rest);
    return is_outside(low, location->before, dialect) ? low : cut_at('/', rest, &step);
}

static void write_outside(const struct location *location, uint64_t dialect, char words[MAX_REASON])
{
    const struct field *field = &FIELD[location->before];
    struct quoted number = quote(outside(location, dialect));
    uint64_t last = last_of(location->before, dialect);
    PRINT(words, "%s: %s is outside %" PRIu64 "-%" PRIu64, field->name, number.text, field->first, last);
}

static void write_no_command(const struct fault *fault, const struct location *location, char words[MAX_REASON])
{
    if (fault->rules.kind == EREMOTHYN_USER_TABLE)
        PRINT(words, "no command after the time");
    else if (location->before > words_of_time(fault->line))
        PRINT(words, "no command after the user");
    else
        PRINT(words, "no user and no command after the time");
}

static void write_byte(const struct fault *fault, char words[MAX_REASON])
{
    unsigned byte = fault->line.start[fault->position.column - 1];
    PRINT(words, "%s (byte %u, 0x%02x)", eremothyn_words(fault->refusal), byte, byte);
}

/* The library's words, after the field and the element. */
static void write_element(const struct fault *fault, const struct location *location, char words[MAX_REASON])
{
    struct quoted element = quote(location->element);
    const char *verb = fault->refusal == EREMOTHYN_STEP_ZERO ? "has" : "is";
    PRINT(words, "%s: %s %s %s", FIELD[location->before].name, element.text, verb, eremothyn_words(fault->refusal));
}

/* The library's words, after the text if there is one. */
static void write_text(const struct fault *fault, struct slice text, char words[MAX_REASON])
{
    struct quoted shown = quote(text);
    if (text.length > 0)
        PRINT(words, "'%s' is %s", shown.text, eremothyn_words(fault->refusal));
    else
        PRINT(words, "%s", eremothyn_words(fault->refusal));
}

void reason_of(const struct fault *fault, char words[MAX_REASON])
{
    struct location location = location_of(fault);
    switch (fault->refusal) {
    case EREMOTHYN_LINE_TOO_LONG:
        PRINT(words, "the line has %" PRIu64 " bytes, more than %d", fault->line.length, EREMOTHYN_MAX_LINE);
        break;
    case EREMOTHYN_TOO_FEW_FIELDS: PRINT(words, "only %d of the five time fields", location.before); break;
    case EREMOTHYN_FIELD_MALFORMED: write_malformed(&location, words); break;
    case EREMOTHYN_OUT_OF_LIMITS: write_outside(&location, fault->rules.dialect, words); break;
    case EREMOTHYN_RANGE_REVERSED:
    case EREMOTHYN_STEP_ZERO: write_element(fault, &location, words); break;
    case EREMOTHYN_NO_COMMAND: write_no_command(fault, &location, words); break;
    case EREMOTHYN_UNKNOWN_WORD:
    case EREMOTHYN_USER_MALFORMED: write_text(fault, location.word, words); break;
    case EREMOTHYN_OFFSET_MALFORMED: write_text(fault, location.rest, words); break;
    case EREMOTHYN_CONTROL_BYTE: write_byte(fault, words); break;
    default: PRINT(words, "%s", eremothyn_words(fault->refusal));
    }
}
