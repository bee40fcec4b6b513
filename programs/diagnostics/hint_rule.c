/* Hints for habits from other crons, from editors and from the shell. Each is a row of one table. */

#include <ctype.h>
#include <string.h>

#include "diagnostics/hint_rule.h"
#include "diagnostics/location.h"
#include "diagnostics/quoting.h"
#include "diagnostics/syntax_error.h"
#include "tables/field.h"

/* What is known about a fault. */
struct evidence {
    const struct fault *fault;
    struct location location;
    struct syntax_error error; /* of a field that isn't well formed; none for any other fault */
};

static bool always(const struct evidence *evidence)
{
    (void)evidence;
    return true;
}

static bool is_utf_16(const struct evidence *evidence)
{
    const struct slice line = evidence->fault->line;
    uint64_t at = evidence->fault->position.column - 1;
    return at + 2 < line.length && line.start[at + 1] != 0 && line.start[at + 2] == 0;
}

/* Whether a line has several CRs, which were to end lines. */
static bool has_crs(const struct evidence *evidence)
{
    const struct slice line = evidence->fault->line;
    uint64_t at = evidence->fault->position.column;
    return line.start[at - 1] == '\r' && memchr(line.start + at, '\r', line.length - at) != NULL;
}

static bool is_cr_lf(const struct evidence *evidence)
{
    const struct slice line = evidence->fault->line;
    return evidence->fault->position.column == line.length && line.start[line.length - 1] == '\r';
}

static bool has_no_break_space(const struct evidence *evidence)
{
    return has_bytes(evidence->location.word, "\xc2\xa0", 2);
}

/* Dashes and quotes that editors write instead of the plain ones: U+2010 to U+201F. */
static bool has_typeset_sign(const struct evidence *evidence)
{
    const struct slice word = evidence->location.word;
    for (uint64_t at = 0; at + 2 < word.length; at++)
        if (word.start[at] == 0xe2 && word.start[at + 1] == 0x80 && word.start[at + 2] >= 0x90 && word.start[at + 2] <= 0x9f)
            return true;
    return false;
}

static bool is_continued(const struct evidence *evidence)
{
    return evidence->fault->follows_backslash;
}

/* Whether a line has a sixth word that looks like a field, and another word after it. */
static bool is_six_fields(const struct evidence *evidence)
{
    const struct slice line = evidence->fault->line;
    return is_like_field(word_of(line, FIELDS)) && word_of(line, FIELDS + 1).length > 0;
}

/* As monday and sept. */
static bool is_long_name(const struct evidence *evidence)
{
    const struct slice text = evidence->error.text;
    struct slice start = { text.start, 3 };
    return evidence->error.kind == UNKNOWN_NAME && text.length > 3 && is_name_of(evidence->location.before, start);
}

/* A month among the weekdays, or a weekday among the months. */
static bool is_other_name(const struct evidence *evidence)
{
    const struct slice text = evidence->error.text;
    return evidence->error.kind == UNKNOWN_NAME && (is_name_of(MONTH, text) || is_name_of(WEEKDAY, text));
}

/* A word that starts like a command, where a field should be. */
static bool is_path(const struct evidence *evidence)
{
    const struct slice word = evidence->location.word;
    return memchr("/.$", word.start[0], 3) != NULL || starts_with(word, "~/");
}

/* A word of letters in place of the last field. In a list or a range it is a mistyped name. */
static bool is_command(const struct evidence *evidence)
{
    bool is_whole = evidence->error.text.length == evidence->location.word.length;
    return evidence->location.before == WEEKDAY && evidence->error.kind == UNKNOWN_NAME && is_whole;
}

static bool has_colon(const struct evidence *evidence)
{
    return memchr(evidence->location.word.start, ':', evidence->location.word.length) != NULL;
}

/* Whether an element that is out of limits is a certain number of a certain field. */
static bool is_value(const struct evidence *evidence, int field, uint64_t value)
{
    const struct slice element = evidence->location.element;
    return evidence->location.before == field && is_digits(element) && number_of(element) == value;
}

static bool is_hour_24(const struct evidence *evidence)
{
    return is_value(evidence, HOUR, 24);
}

static bool is_minute_60(const struct evidence *evidence)
{
    return is_value(evidence, MINUTE, 60);
}

static bool is_day_0(const struct evidence *evidence)
{
    return is_value(evidence, DAY, 0) || is_value(evidence, MONTH, 0);
}

static bool is_sunday_7(const struct evidence *evidence)
{
    return is_value(evidence, WEEKDAY, 7);
}

/* As 4 30, for half past four. */
static bool is_minute_second(const struct evidence *evidence)
{
    const struct slice element = evidence->location.element;
    return evidence->location.before == HOUR && is_digits(element) && number_of(element) > 24 && number_of(element) < 60;
}

/* An entry of a system table with one word after its time. */
static bool is_user_missing(const struct evidence *evidence)
{
    bool is_system = evidence->fault->rules.kind != EREMOTHYN_USER_TABLE;
    return is_system && evidence->location.before == words_of_time(evidence->fault->line) + 1;
}

static bool is_every(const struct evidence *evidence)
{
    return starts_with(evidence->location.word, "@every");
}

static bool has_capitals(const struct evidence *evidence)
{
    for (uint64_t at = 0; at < evidence->location.word.length; at++)
        if (isupper(evidence->location.word.start[at]))
            return true;
    return false;
}

static bool is_byte_order_mark(const struct evidence *evidence)
{
    return starts_with(evidence->location.word, BYTE_ORDER_MARK);
}

static bool is_export(const struct evidence *evidence)
{
    const struct slice word = evidence->location.word;
    return word.length == 6 && starts_with(word, "export");
}

static bool is_open_quote(const struct evidence *evidence)
{
    return quoting_of(evidence->fault->line) == QUOTE_OPEN;
}

static bool has_text_after_quote(const struct evidence *evidence)
{
    return quoting_of(evidence->fault->line) == QUOTE_FOLLOWED;
}

static bool is_comment(const struct evidence *evidence)
{
    const struct slice word = evidence->location.word;
    return starts_with(word, "//") || starts_with(word, ";") || starts_with(word, "--");
}

/* Whether a line has the five fields of a time, but starts with a byte that no entry starts with. */
static bool is_entry(const struct evidence *evidence)
{
    int fields = 0;
    for (int number = 1; number < FIELDS; number++) {
        struct slice word = word_of(evidence->fault->line, number);
        fields += word.length > 0 && (word.start[0] == '*' || isdigit(word.start[0]));
    }
    return fields >= 2 && word_of(evidence->fault->line, FIELDS).length > 0;
}

static bool is_field(const struct evidence *evidence)
{
    return is_like_field(evidence->location.word);
}

/* An offset, and more text after it. */
static bool is_followed(const struct evidence *evidence)
{
    const struct slice word = evidence->location.word;
    bool has_form = word.length == 6 && (word.start[0] == '+' || word.start[0] == '-') && word.start[3] == ':';
    return has_form && evidence->location.rest.length > word.length;
}

/* A letter first, or after a quote. */
static bool is_zone(const struct evidence *evidence)
{
    const struct slice word = evidence->location.word;
    bool is_quoted = word.length > 1 && (word.start[0] == '"' || word.start[0] == '\'');
    return word.length > 0 && isalpha(word.start[is_quoted ? 1 : 0]);
}

/* Whether a word has a sign. A letter next to other letters is no sign. */
static bool has_sign(struct slice word, char sign)
{
    for (uint64_t at = 0; at < word.length; at++) {
        bool is_within = (at > 0 && isalpha(word.start[at - 1])) || (at + 1 < word.length && isalpha(word.start[at + 1]));
        if (word.start[at] == sign && (!isalpha(sign) || !is_within))
            return true;
    }
    return false;
}

/* A sign of other crons in a field; also in the first field. */
static bool is_sign(const struct evidence *evidence, char sign)
{
    bool is_field = evidence->fault->refusal == EREMOTHYN_FIELD_MALFORMED;
    bool is_first = evidence->fault->refusal == EREMOTHYN_BAD_SETTING && is_entry(evidence);
    return (is_field || is_first) && has_sign(evidence->location.word, sign);
}

static const char NO_BREAK_SPACE[] = "a no-break space stands here: only spaces and tabs are blanks";
static const char TYPESET[] = "a dash or a quote of an editor stands here: the plain ones are - and \" and '";
static const char ONE_LINE[] = "a command is one line: a \\ at its end doesn't join it with the next";
static const char SIX_FIELDS[] = "a time has five fields, without seconds and years; are there six?";
static const char WHICH_NAMES[] = "the fields are minute, hour, day, month, weekday; the last two have names";
static const char FIELD_MISSING[] = "five time fields stand before the command; is one missing?";
static const char USER_FIRST[] = "in a system table a user stands before the command";

/* A row has a refusal with a condition, or a syntax error, or a sign of other crons. */
static const struct hint_rule {
    uint64_t refusal;
    bool (*holds)(const struct evidence *evidence);
    enum syntax_error_kind kind;
    char sign;
    const char *hint;
} HINT_RULES[] = {
#define REFUSAL(refusal, holds) EREMOTHYN_##refusal, holds, NO_SYNTAX_ERROR, 0
#define SYNTAX(kind) 0, NULL, kind, 0
#define SIGN(sign) 0, NULL, NO_SYNTAX_ERROR, sign
    { REFUSAL(NUL_BYTE, is_utf_16), "a crontab is ASCII or UTF-8; this looks like UTF-16" },
    { REFUSAL(FIELD_MALFORMED, has_no_break_space), NO_BREAK_SPACE },
    { REFUSAL(FIELD_MALFORMED, has_typeset_sign), TYPESET },
    { REFUSAL(FIELD_MALFORMED, is_continued), ONE_LINE },
    { SYNTAX(EMPTY_ELEMENT), "a list has commas between its elements only, and no blanks" },
    { REFUSAL(FIELD_MALFORMED, is_six_fields), SIX_FIELDS },
    { REFUSAL(FIELD_MALFORMED, is_long_name), "names have three letters, as mon and jan" },
    { REFUSAL(FIELD_MALFORMED, is_other_name), WHICH_NAMES },
    { REFUSAL(FIELD_MALFORMED, is_path), FIELD_MISSING },
    { SIGN('?'), "other crons write ? for any value: write *" },
    { SIGN('L'), "other crons write L for the last day: here days are numbers" },
    { SIGN('W'), "other crons write W for the nearest workday: here days are numbers" },
    { SIGN('#'), "other crons write # for a month's n-th weekday: there is no such sign here" },
    { SIGN('~'), "other crons write ~ for a random value: write one" },
    { SIGN('H'), "other crons write H for a value of their choice: write one" },
    { REFUSAL(FIELD_MALFORMED, is_command), FIELD_MISSING },
    { SYNTAX(STAR_IN_LIST), "* is every value already: it stands alone, or with a step as */5" },
    { SYNTAX(LONE_STEP), "other crons go on to the last value: write the range, as 5-59/2 for minutes" },
    { SYNTAX(NAME_NOT_HERE), WHICH_NAMES },
    { REFUSAL(FIELD_MALFORMED, has_colon), "the minute and the hour are two fields, the minute first" },
    { REFUSAL(TOO_FEW_FIELDS, is_continued), ONE_LINE },
    { REFUSAL(OUT_OF_LIMITS, is_six_fields), SIX_FIELDS },
    { REFUSAL(OUT_OF_LIMITS, is_hour_24), "midnight is hour 0" },
    { REFUSAL(OUT_OF_LIMITS, is_minute_60), "a full hour is minute 0" },
    { REFUSAL(OUT_OF_LIMITS, is_day_0), "days and months count from 1" },
    { REFUSAL(OUT_OF_LIMITS, is_sunday_7), "in the wrapping dialect Sunday is 0" },
    { REFUSAL(OUT_OF_LIMITS, is_minute_second), "the minute stands before the hour" },
    { REFUSAL(RANGE_REVERSED, always), "two ranges say it in either dialect, as 22-23,0-3 for 22-3" },
    { REFUSAL(NO_COMMAND, is_user_missing), USER_FIRST },
    { REFUSAL(UNKNOWN_WORD, is_every), "there is no @every; steps do it, as */5 * * * *" },
    { REFUSAL(UNKNOWN_WORD, has_capitals), "these words have small letters" },
    { REFUSAL(BAD_SETTING, is_byte_order_mark), "the line starts with a byte order mark (BOM): take its three bytes away" },
    { REFUSAL(BAD_SETTING, is_continued), ONE_LINE },
    { REFUSAL(BAD_SETTING, has_no_break_space), NO_BREAK_SPACE },
    { REFUSAL(BAD_SETTING, has_typeset_sign), TYPESET },
    { REFUSAL(BAD_SETTING, is_export), "a setting is name=value, without export" },
    { REFUSAL(BAD_SETTING, is_open_quote), "the quote isn't closed" },
    { REFUSAL(BAD_SETTING, has_text_after_quote), "only blanks may stand behind a value in quotes" },
    { REFUSAL(BAD_SETTING, is_comment), "a comment starts with #" },
    { REFUSAL(BAD_SETTING, is_entry), "an entry starts with a digit, * or @" },
    { REFUSAL(USER_MALFORMED, is_field), SIX_FIELDS },
    { REFUSAL(USER_MALFORMED, always), USER_FIRST },
    { REFUSAL(OFFSET_MALFORMED, is_followed), "a value goes up to the line's end: no comment may stand behind an offset" },
    { REFUSAL(OFFSET_MALFORMED, is_zone), "zones have no names here: write what the clock is ahead of UTC, as +09:00" },
    { REFUSAL(CONTROL_BYTE, is_cr_lf), "lines end in LF, without a CR before it: tr -d '\\r' takes them away" },
    { REFUSAL(CONTROL_BYTE, has_crs), "lines end in LF: tr '\\r' '\\n' makes one of each CR" },
};

static bool applies(const struct evidence *evidence, const struct hint_rule *rule)
{
    if (rule->sign != 0)
        return is_sign(evidence, rule->sign);
    if (rule->kind != NO_SYNTAX_ERROR)
        return evidence->error.kind == rule->kind;
    return evidence->fault->refusal == rule->refusal && rule->holds(evidence);
}

const char *hint_for(const struct fault *fault)
{
    struct evidence evidence = { fault, location_of(fault), { NO_SYNTAX_ERROR, { NULL, 0 } } };
    if (fault->refusal == EREMOTHYN_FIELD_MALFORMED)
        evidence.error = syntax_error_of(evidence.location.before, evidence.location.word);
    for (size_t i = 0; i < sizeof HINT_RULES / sizeof *HINT_RULES; i++)
        if (applies(&evidence, &HINT_RULES[i]))
            return HINT_RULES[i].hint;
    return NULL;
}
