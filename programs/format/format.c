/* eremothyn format [-l] [-w] [-d] [--dialect NAME] [FILE...]: user tables in their normal form. */

#include <stdio.h>
#include <string.h>

#include "arguments/arguments.h"
#include "arguments/message.h"
#include "diagnostics/fault.h"
#include "format/diff.h"
#include "format/format.h"
#include "format/rewrite.h"

enum { LIST, WRITE, DIFF };
static const struct option OPTIONS[] = {
    [LIST] = { 'l', "list", NULL, "print the names of the files whose text differs" },
    [WRITE] = { 'w', "write", NULL, "put the normal text in the place of each file that differs" },
    [DIFF] = { 'd', "diff", NULL, "print the differences" },
    { NO_OPTION },
};

static bool is_same(const struct file *one, const struct file *other)
{
    return one->length == other->length && memcmp(one->bytes, other->bytes, one->length) == 0;
}

/* Does what the options say with a file whose text differs. */
static int handle(const char *name, const struct file *table, const struct file *text, const char *const given[])
{
    if (given[LIST] != NULL)
        puts(name);
    if (given[WRITE] != NULL) {
        const char *why = rewrite(name, text);
        if (why != NULL)
            return flush_output(fail_for(name, why));
    }
    if (given[DIFF] != NULL)
        print_diff(name, table, text);
    return flush_output(DONE);
}

static int format(const char *name, const struct arguments *arguments)
{
    static struct file table, text;
    if (!read_file(name, arguments->rules, &table))
        return fail(name);
    uint64_t length = eremothyn_normal_form(table.bytes, table.length, table.rules.dialect, text.bytes, sizeof text.bytes);
    if (EREMOTHYN_IS_REFUSED(length))
        return refuse_text(name, &table, EREMOTHYN_REFUSAL(length));
    text.length = length;
    const char *const *given = arguments->values;
    if (given[LIST] == NULL && given[WRITE] == NULL && given[DIFF] == NULL) {
        fwrite(text.bytes, 1, text.length, stdout);
        return flush_output(DONE);
    }
    return is_same(&table, &text) ? DONE : handle(name, &table, &text, given);
}

static bool names_input(const struct arguments *arguments)
{
    for (int i = 0; i < arguments->count; i++)
        if (strcmp(arguments->operands[i], "-") == 0)
            return true;
    return false;
}

static int run(const struct arguments *arguments)
{
    struct arguments files = or_input(arguments);
    if (files.values[WRITE] != NULL && names_input(&files))
        return misuse("standard input can't be rewritten");
    return each_file(&files, format);
}

const struct command format_command = {
    "format",
    "[FILE...]",
    "write a user's crontab in its normal form",
    "Prints the normal text of each FILE, or of standard input where none is named. It has no comments.\n"
    "With -l, -w or -d it does what that says instead. A FILE that is refused stays as it is, and standard\n"
    "error says where and why, as 'eremothyn check' does.\n"
    "The exit status is 0 if every file is taken, whether it differs or not, 1 if one is refused, 2 if\n"
    "one can't be read or written.\n",
    USER_TABLES,
    OPTIONS,
    run,
};
