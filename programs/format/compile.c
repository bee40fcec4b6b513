/* eremothyn compile [-f] [--dialect NAME] [FILE]: a user table as records, for a narrow link. */

#define _XOPEN_SOURCE 700

#include <stdio.h>
#include <unistd.h>

#include "arguments/arguments.h"
#include "arguments/message.h"
#include "diagnostics/fault.h"
#include "format/compile.h"

enum { FORCE };
static const struct option OPTIONS[] = {
    [FORCE] = { 'f', "force", NULL, "write records to a terminal, too" },
    { NO_OPTION },
};

static int compile(const char *name, const struct arguments *arguments)
{
    static struct file table;
    static uint8_t records[EREMOTHYN_MAX_COMPILED];
    if (!read_file(name, arguments->rules, &table))
        return fail(name);
    uint64_t length = eremothyn_compile(table.bytes, table.length, table.rules.dialect, records, sizeof records);
    if (EREMOTHYN_IS_REFUSED(length))
        return refuse_text(name, &table, EREMOTHYN_REFUSAL(length));
    fwrite(records, 1, length, stdout);
    return flush_output(DONE);
}

static int run(const struct arguments *arguments)
{
    if (arguments->values[FORCE] == NULL && isatty(STDOUT_FILENO))
        return misuse("records aren't written to a terminal, unless by -f");
    return one_file(arguments, compile);
}

const struct command compile_command = {
    "compile",
    "[FILE]",
    "write a user's crontab as records, for a narrow link",
    "Writes the records of FILE, or of standard input where none is named. 'eremothyn decompile' reads them.\n"
    "If FILE is refused, nothing is written, and standard error says where and why, as 'eremothyn check' does.\n"
    "The exit status is 0 if the file is taken, 1 if it is refused, 2 if it can't be read or standard\n"
    "output can't be written or is a terminal.\n",
    USER_TABLES,
    OPTIONS,
    run,
};
