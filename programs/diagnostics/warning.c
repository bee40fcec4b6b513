/* Warnings: what a good table may have by mistake. */

#include <inttypes.h>
#include <string.h>

#include "diagnostics/excerpt.h"
#include "diagnostics/percent.h"
#include "diagnostics/warning.h"
#include "tables/entry.h"
#include "tables/field.h"

/* Enough for any warning, and a zero byte. */
enum { MAX_WARNING = 256 };

/* What is examined: a line, and its entry. */
struct view {
    const struct file *table;
    const struct entries *entries;
    const struct entry *entry; /* NULL if the line is a setting */
    struct slice line;
};

/* Finds the bytes that a warning is about, and writes its words. They are empty if there is nothing to warn about. */
typedef struct slice find_warning(const struct view *view, char words[MAX_WARNING]);

static struct slice none(void)
{
    return (struct slice){ NULL, 0 };
}

/* The part of a line from the start of one word to the end of another. */
static struct slice from_to(struct slice first, struct slice last)
{
    return (struct slice){ first.start, (uint64_t)(last.start - first.start) + last.length };
}

/* The same entry on an earlier line. */
static struct slice find_same(const struct view *view, char words[MAX_WARNING])
{
    for (const struct entry *other = view->entries->all; other < view->entry; other++) {
        if (!is_same_entry(other, view->entry))
            continue;
        snprintf(words, MAX_WARNING, "the same entry as on line %" PRIu64 ": its job runs more than once", other->line);
        return from_to(word_of(view->line, 0), view->entry->command);
    }
    return none();
}

/* An entry never fires only if none of its months has its days. */
static struct slice find_never(const struct view *view, char words[MAX_WARNING])
{
    const struct slice line = view->line;
    if (eremothyn_next(LINE(line, view->table->rules), 0, 0) != EREMOTHYN_REFUSED + EREMOTHYN_NEVER)
        return none();
    snprintf(words, MAX_WARNING, "the entry never fires: there is no such date");
    return from_to(word_of(line, DAY), word_of(line, MONTH));
}

static struct slice find_user(const struct view *view, char words[MAX_WARNING])
{
    struct slice word = word_of(view->entry->command, 0);
    bool has_more = word_of(view->entry->command, 1).length > 0;
    if (view->table->rules.kind != EREMOTHYN_USER_TABLE || !has_more || word.length != 4 || !starts_with(word, "root"))
        return none();
    snprintf(words, MAX_WARNING, "the command is 'root': is this a system table? (--system)");
    return word;
}

/* A word that looks like a field, in place of the user or the command. */
static struct slice find_six_fields(const struct view *view, char words[MAX_WARNING])
{
    bool is_owner = is_like_field(view->entry->owner);
    struct slice word = is_owner ? view->entry->owner : word_of(view->entry->command, 0);
    bool has_more = is_owner || word_of(view->entry->command, 1).length > 0;
    bool is_any = word.start[0] == '*' || word.start[0] == '?';
    if (!is_like_field(word) || (!has_more && !is_any))
        return none();
    struct quoted shown = quote(word);
    snprintf(words, MAX_WARNING, "'%s' looks like a sixth time field: there are five", shown.text);
    return word;
}

/* The first element of a field whose step is longer than the field's number of values. */
static struct slice long_step(struct slice field, uint64_t values)
{
    while (field.start != NULL) {
        struct slice step, element = cut_at(',', field, &field);
        cut_at('/', element, &step);
        if (step.start != NULL && number_of(step) > values)
            return element;
    }
    return none();
}

/* A step that is longer than its field, as 90 for minutes: it leaves one value, and doesn't go on into the next hour. */
static struct slice find_step(const struct view *view, char words[MAX_WARNING])
{
    for (int number = 0; number < words_of_time(view->line); number++) {
        const struct field *field = &FIELD[number];
        uint64_t values = last_of(number, view->table->rules.dialect) - field->first + 1;
        struct slice element = long_step(word_of(view->line, number), values);
        snprintf(words, MAX_WARNING, "%s: a step of more than %" PRIu64 " leaves one value", field->name, values);
        if (element.length > 0)
            return element;
    }
    return none();
}

static struct slice find_percent(const struct view *view, char words[MAX_WARNING])
{
    snprintf(words, MAX_WARNING, "the command ends before this %%: what follows is its standard input");
    return doubtful_percent(view->entry->command);
}

static struct slice find_backslash(const struct view *view, char words[MAX_WARNING])
{
    const struct slice command = view->entry->command;
    snprintf(words, MAX_WARNING, "the command ends in \\, which doesn't join it with the next line");
    return ends_in_backslash(command) ? (struct slice){ command.start + command.length - 1, 1 } : none();
}

/* A comment after a value without quotes. */
static struct slice find_comment(const struct view *view, char words[MAX_WARNING])
{
    const struct slice line = view->line;
    uint64_t at = eremothyn_setting_value_offset(LINE(line, view->table->rules), 1);
    uint64_t end = at + eremothyn_setting_value_length(LINE(line, view->table->rules), 1);
    bool is_quoted = line.start[end] == '"' || line.start[end] == '\'';
    snprintf(words, MAX_WARNING, "the # and what follows are part of the value");
    for (; at < end && !is_quoted; at++)
        if (line.start[at] == '#' && is_blank(line.start[at - 1]))
            return (struct slice){ line.start + at, end - at };
    return none();
}

/* The rules for the line of an entry, and for the line of a setting. */
struct warning_rule {
    find_warning *find;
    const char *name;
    const char *hint;
};
static const struct warning_rule OF_ENTRIES[] = {
    { find_same, "same", NULL },
    { find_step, "step", NULL },
    { find_never, "never", NULL },
    { find_user, "user", NULL },
    { find_six_fields, "six-fields", "seconds and years aren't here: minute, hour, day, month, weekday" },
    { find_percent, "percent", "\\% is a percent sign, as in date +\\%F" },
    { find_backslash, "backslash", NULL },
    { NULL, NULL, NULL },
};
static const struct warning_rule OF_SETTINGS[] = {
    { find_comment, "comment", "a comment stands on a line of its own" },
    { NULL, NULL, NULL },
};

/* A byte order mark becomes part of the first name. */
static uint64_t print_byte_order_mark(struct style style, const char *name, const struct file *table)
{
    struct slice first = { table->bytes, table->length };
    if (!starts_with(first, BYTE_ORDER_MARK))
        return 0;
    static const char WORDS[] = "a byte order mark is part of the first setting's name";
    struct slice line = without_newline(line_at(table, 0));
    struct diagnostic diagnostic = { WARNING, { 1, 1 }, WORDS, "bom", line, strlen(BYTE_ORDER_MARK), NULL };
    print_diagnostic(style, name, &diagnostic);
    return 1;
}

/* Prints the warnings about a line. Returns how many. */
static uint64_t print_found(struct style style, const char *name, const struct view *view, uint64_t number, struct hints *hints)
{
    uint64_t warnings = 0;
    for (const struct warning_rule *rule = view->entry != NULL ? OF_ENTRIES : OF_SETTINGS; rule->find != NULL; rule++) {
        char words[MAX_WARNING];
        struct slice at = rule->find(view, words);
        if (at.length == 0)
            continue;
        struct position position = { number, (uint64_t)(at.start - view->line.start) + 1 };
        struct slice line = without_newline(view->line);
        struct diagnostic diagnostic = { WARNING, position, words, rule->name, line, at.length, hint_once(rule->hint, hints) };
        print_diagnostic(style, name, &diagnostic);
        warnings++;
    }
    return warnings;
}

static bool is_setting(struct slice line, struct rules rules)
{
    return !EREMOTHYN_IS_REFUSED(eremothyn_setting_value_offset(LINE(line, rules), 1));
}

uint64_t print_warnings(struct style style, const char *name, const struct file *table)
{
    static struct entries entries;
    struct lines lines = { table, 0, 0 };
    struct view view = { table, &entries, NULL, { NULL, 0 } };
    struct hints hints = { { NULL }, 0 };
    uint64_t warnings = print_byte_order_mark(style, name, table);
    read_entries(table, &entries);
    const struct entry *next = entries.all;
    while (next_line(&lines, &view.line)) {
        bool is_entry = next < entries.all + entries.count && next->line == lines.number;
        view.entry = is_entry ? next++ : NULL;
        if (is_entry || is_setting(view.line, table->rules))
            warnings += print_found(style, name, &view, lines.number, &hints);
    }
    return warnings;
}
