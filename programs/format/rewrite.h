/* Replaces the text of a file. */

#ifndef FORMAT_REWRITE_H
#define FORMAT_REWRITE_H

#include "tables/file.h"

/*
 * Replaces the text of a regular file, completely or not at all: a new file with the same owner and mode takes its name. A symbolic
 * link stays, and the file that it leads to is replaced. Returns NULL, or why nothing changed.
 */
const char *rewrite(const char *name, const struct file *text);

#endif
