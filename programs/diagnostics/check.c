/* eremothyn check [-s] [-q] [--short] [--strict] [--dialect NAME] FILE...: what is wrong with each crontab. */

#include "arguments/arguments.h"
#include "arguments/message.h"
#include "diagnostics/check.h"
#include "diagnostics/fault.h"
#include "diagnostics/warning.h"

enum { QUIET, SHORT, STRICT };
static const struct option OPTIONS[] = {
    [QUIET] = { 'q', "quiet", NULL, "print diagnostics only, and nothing of a file that has none" },
    [SHORT] = { 0, "short", NULL, "print each diagnostic on one line, without the crontab's line and hints" },
    [STRICT] = { 0, "strict", NULL, "let warnings count: the exit status is 1 for them, too" },
    { NO_OPTION },
};

static void print_accepted(struct style style, const char *name, uint64_t entries, uint64_t warnings)
{
    if (style.is_quiet)
        return;
    fprintf(style.to, "%s: ", name);
    print_count(style.to, entries, "entry", "entries");
    if (warnings > 0) {
        fputs(", ", style.to);
        print_count(style.to, warnings, "warning", "warnings");
    }
    fputc('\n', style.to);
}

static int check(const char *name, const struct arguments *arguments)
{
    static struct file table;
    struct style style = style_for(stdout);
    style.is_quiet = arguments->values[QUIET] != NULL;
    style.is_short = arguments->values[SHORT] != NULL;
    if (!read_file(name, arguments->rules, &table))
        return fail(name);
    uint64_t entries = eremothyn_check(TABLE(&table));
    if (EREMOTHYN_IS_REFUSED(entries))
        return flush_output(print_faults(style, name, &table));
    uint64_t warnings = print_warnings(style, name, &table);
    print_accepted(style, name, entries, warnings);
    return flush_output(warnings > 0 && arguments->values[STRICT] != NULL ? REFUSED : DONE);
}

static int run(const struct arguments *arguments)
{
    if (arguments->count == 0)
        return misuse("no file is named");
    return each_file(arguments, check);
}

const struct command check_command = {
    "check",
    "FILE...",
    "say whether the engine takes a crontab, and if not, where and why",
    "Every bad line of a FILE is told, and then how many there are; of a good one, what may not be meant,\n"
    "and then how many entries it has:\n"
    "  NAME:LINE:COLUMN: error: what is wrong [NUMBER]\n"
    "  NAME: refused: N errors\n"
    "  NAME:LINE:COLUMN: warning: what may be wrong [WORD]\n"
    "  NAME: N entries, N warnings\n"
    "The exit status is 0 if every file is taken, 1 if one is refused, 2 if one can't be read.\n",
    ALL_TABLES,
    OPTIONS,
    run,
};
