/* The faults of a table. */

#include <inttypes.h>

#include "arguments/message.h"
#include "diagnostics/fault.h"
#include "diagnostics/hint_rule.h"
#include "diagnostics/location.h"
#include "diagnostics/reason.h"

static void print_fault(struct style style, const char *name, const struct fault *fault, struct hints *hints)
{
    char words[MAX_REASON];
    char number[8];
    reason_of(fault, words);
    snprintf(number, sizeof number, "%" PRIu64, fault->refusal);
    const char *hint = hint_once(hint_for(fault), hints);
    struct diagnostic diagnostic = { ERROR, fault->position, words, number, fault->line, extent_of(fault), hint };
    print_diagnostic(style, name, &diagnostic);
}

/* Prints how many faults there are, if that is wanted. Returns REFUSED. */
static int refuse(struct style style, const char *name, uint64_t faults)
{
    if (style.is_quiet || style.is_short)
        return REFUSED;
    fprintf(style.to, "%s: refused: ", name);
    print_count(style.to, faults, "error\n", "errors\n");
    return REFUSED;
}

/* Checks a line as a table of its own. */
static bool is_bad(struct slice line, struct fault *fault)
{
    uint64_t answer = eremothyn_check(LINE(line, fault->rules));
    if (!EREMOTHYN_IS_REFUSED(answer))
        return false;
    fault->refusal = EREMOTHYN_REFUSAL(answer);
    fault->position.column = eremothyn_fault_column(LINE(line, fault->rules));
    return true;
}

/* Prints one fault: on a line or, if that is 0, of the whole table. */
static int print_fault_at(struct style style, const char *name, const struct file *table, struct position position,
                          uint64_t refusal)
{
    struct hints hints = { { NULL }, 0 };
    struct fault fault = { refusal, position, { NULL, 0 }, table->rules, false };
    struct lines lines = { table, 0, 0 };
    struct slice line;
    while (lines.number < position.line && next_line(&lines, &line))
        fault.line = without_newline(line);
    print_fault(style, name, &fault, &hints);
    return refuse(style, name, 1);
}

int print_faults(struct style style, const char *name, const struct file *table)
{
    struct hints hints = { { NULL }, 0 };
    struct lines lines = { table, 0, 0 };
    struct slice line, before = { NULL, 0 };
    uint64_t refusal = EREMOTHYN_REFUSAL(eremothyn_check(TABLE(table)));
    struct position verdict = { eremothyn_fault_line(TABLE(table)), eremothyn_fault_column(TABLE(table)) };
    uint64_t faults = 0;
    if (verdict.line == 0)
        return print_fault_at(style, name, table, verdict, refusal);
    for (; next_line(&lines, &line); before = without_newline(line)) {
        struct position position = { lines.number, verdict.column };
        struct fault fault = { refusal, position, without_newline(line), table->rules, ends_in_backslash(before) };
        if (lines.number < verdict.line || (lines.number > verdict.line && !is_bad(line, &fault)))
            continue;
        print_fault(style, name, &fault, &hints);
        faults++;
    }
    return refuse(style, name, faults);
}

int read_good_table(const char *name, struct rules rules, struct file *table)
{
    if (!read_file(name, rules, table))
        return fail(name);
    if (!EREMOTHYN_IS_REFUSED(eremothyn_check(TABLE(table))))
        return DONE;
    return print_faults(style_for(stderr), name, table);
}

/* The first line whose own normal text is too long; the whole table if there is no such line. */
static struct position too_long_at(const struct file *table)
{
    const uint64_t too_long = EREMOTHYN_REFUSED + EREMOTHYN_TEXT_TOO_LONG;
    struct lines lines = { table, 0, 0 };
    struct slice line;
    while (next_line(&lines, &line))
        if (eremothyn_normal_form(line.start, line.length, table->rules.dialect, NULL, 0) == too_long)
            return (struct position){ lines.number, 1 };
    return (struct position){ 0, 0 };
}

int refuse_text(const char *name, const struct file *table, uint64_t refusal)
{
    struct style style = style_for(stderr);
    if (refusal == EREMOTHYN_TEXT_TOO_LONG)
        return print_fault_at(style, name, table, too_long_at(table), refusal);
    return print_faults(style, name, table);
}
