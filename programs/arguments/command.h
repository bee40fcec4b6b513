/* What a subcommand is. */

#ifndef ARGUMENTS_COMMAND_H
#define ARGUMENTS_COMMAND_H

#include <stddef.h>

struct arguments;

/* An option: -l and --name, or only --name if the letter is 0. A list of options ends with { NO_OPTION }. */
struct option {
    char letter;
    const char *name;
    const char *value; /* how the help names its value; NULL if it takes none */
    const char *meaning;
};
#define NO_OPTION 0, NULL, NULL, NULL
enum { MAX_OPTIONS = 8 };

/* Which crontabs a subcommand reads. For user tables it takes --dialect; for tables of both kinds also --system. */
enum reads { NO_TABLES, USER_TABLES, ALL_TABLES };

struct command {
    const char *name;
    const char *operands; /* for the usage line */
    const char *purpose;  /* for the list of subcommands */
    const char *details;  /* for its own help, in whole lines */
    enum reads reads;
    const struct option *options;
    int (*run)(const struct arguments *arguments);
};

/* Part of the details: the exit statuses of a subcommand that reads one crontab and prints something for people. */
#define READER_STATUSES \
    "The exit status is 0 if the file is taken, 1 if it is refused, which standard error tells as\n" \
    "'eremothyn check' does, 2 if it can't be read or standard output can't be written.\n"

#endif
