/* Messages about the command itself. */

#include <errno.h>
#include <stdarg.h>
#include <stdbool.h>
#include <stdio.h>
#include <string.h>

#include "arguments/message.h"

static const char *current = NULL;

void set_subcommand(const char *name)
{
    current = name;
}

/* Prints the names of the program and of the subcommand. */
static void print_name(void)
{
    fputs("eremothyn", stderr);
    if (current != NULL)
        fprintf(stderr, " %s", current);
}

int fail_for(const char *what, const char *why)
{
    print_name();
    fprintf(stderr, ": %s: %s\n", what, why);
    return FAILED;
}

int fail(const char *what)
{
    return fail_for(what, strerror(errno));
}

int misuse(const char *format, ...)
{
    va_list values;
    print_name();
    fputs(": ", stderr);
    va_start(values, format);
    vfprintf(stderr, format, values);
    va_end(values);
    fputs("\nSee '", stderr);
    print_name();
    fputs(" --help'.\n", stderr);
    return FAILED;
}

int flush_output(int status)
{
    static bool said = false;
    if (fflush(stdout) == 0 && !ferror(stdout))
        return status;
    if (!said)
        fail("standard output");
    said = true;
    return FAILED;
}
