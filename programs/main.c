/* eremothyn SUBCOMMAND ...: the crontab engine at a terminal. A subcommand is a file in one of the folders, and a row here. */

#include <stdio.h>
#include <string.h>

#include "agenda/agenda.h"
#include "agenda/explain.h"
#include "agenda/next.h"
#include "arguments/arguments.h"
#include "arguments/message.h"
#include "diagnostics/check.h"
#include "format/compile.h"
#include "format/decompile.h"
#include "format/format.h"

/* In the order of the overview. */
static const struct command *const COMMANDS[] = {
    &check_command, &explain_command, &agenda_command, &next_command, &format_command, &compile_command, &decompile_command, NULL,
};

/* A subcommand by its name, or NULL. */
static const struct command *named(const char *name)
{
    const struct command *const *at = COMMANDS;
    while (*at != NULL && strcmp((*at)->name, name) != 0)
        at++;
    return *at;
}

static int print_overview(void)
{
    puts("usage: eremothyn SUBCOMMAND [ARGUMENT...]\n"
         "       eremothyn help [SUBCOMMAND]\n"
         "       eremothyn --version\n");
    for (const struct command *const *at = COMMANDS; *at != NULL; at++)
        printf("  %-12s%s\n", (*at)->name, (*at)->purpose);
    return DONE;
}

static int print_help(const struct command *command)
{
    printf("usage: eremothyn %s [OPTION...] %s\n\n", command->name, command->operands);
    printf("%s: %s.\n%s\n", command->name, command->purpose, command->details);
    print_options(command);
    puts("  -h, --help        print this\n"
         "  --                end the options: what follows are names\n"
         "\n"
         "A FILE that is - is standard input.");
    return DONE;
}

static int help(int count, char **words)
{
    if (count == 0)
        return print_overview();
    const struct command *command = named(words[0]);
    if (command == NULL)
        return misuse("no help for '%s', which is no subcommand", words[0]);
    return print_help(command);
}

static int run(const struct command *command, int count, char **words)
{
    struct arguments arguments;
    set_subcommand(command->name);
    switch (take_options(command, count, words, &arguments)) {
    case HELP_WANTED: return print_help(command);
    case MISUSED: return FAILED;
    default: return command->run(&arguments);
    }
}

static int dispatch(int count, char **words)
{
    if (count == 0)
        return misuse("no subcommand is named");
    const char *first = words[0];
    if (strcmp(first, "help") == 0 || strcmp(first, "--help") == 0 || strcmp(first, "-h") == 0)
        return help(count - 1, words + 1);
    if (strcmp(first, "--version") == 0) {
        puts("eremothyn " EREMOTHYN_VERSION);
        return DONE;
    }
    const struct command *command = named(first);
    if (command == NULL)
        return misuse("unknown %s '%s'", first[0] == '-' ? "option" : "subcommand", first);
    return run(command, count - 1, words + 1);
}

int main(int argc, char **argv)
{
    int words = argc > 0 ? argc - 1 : 0;
    return flush_output(dispatch(words, argv + 1));
}
