/* Messages about the command itself: failures, misuse, and output that can't be written. */

#ifndef ARGUMENTS_MESSAGE_H
#define ARGUMENTS_MESSAGE_H

/* Exit statuses. With several files the highest one counts. */
enum { DONE = 0, REFUSED = 1, FAILED = 2 };

/* Names the subcommand in messages from now on. Before that they name only the program. */
void set_subcommand(const char *name);

/* Reports that something failed, and why. Returns FAILED. */
int fail_for(const char *what, const char *why);

/* The same with the reason in errno. */
int fail(const char *what);

/* Reports what is wrong with the arguments, and where to find help. Returns FAILED. */
int misuse(const char *format, ...);

/* Writes out standard output. Returns the status, or FAILED if it can't be written, which is reported once. */
int flush_output(int status);

#endif
