/* The arguments of a subcommand: its options, and the files that it works on. */

#ifndef ARGUMENTS_ARGUMENTS_H
#define ARGUMENTS_ARGUMENTS_H

#include "arguments/command.h"
#include "tables/file.h"

/*
 * The n-th option of the subcommand has the n-th value: NULL if it isn't given, "" if it takes none. The options --system and
 * --dialect aren't among them. They are in the rules.
 */
struct arguments {
    int count;
    char **operands;
    const char *values[MAX_OPTIONS];
    struct rules rules;
};

/* Prints the help for a subcommand's options. */
void print_options(const struct command *command);

/*
 * Takes the options out of the words after a subcommand. They may be anywhere before "--". A single "-" is an operand, and so is
 * every word after "--". A value is the next word, or it follows --name=. If an option is given twice, the last one counts.
 */
enum taken { TAKEN, HELP_WANTED, MISUSED };
enum taken take_options(const struct command *command, int count, char **words, struct arguments *arguments);

/* What is done with a file, by its name. Returns an exit status. */
typedef int work_on(const char *name, const struct arguments *arguments);

/* Works on each file in order. Returns the highest exit status. */
int each_file(const struct arguments *arguments, work_on *work);

/* The same arguments, with standard input as the only file if none is named. */
struct arguments or_input(const struct arguments *arguments);

/* Works on the one file that is named, or on standard input if none is. More than one is a misuse. */
int one_file(const struct arguments *arguments, work_on *work);

#endif
