/* What the normal text changes in a table. */

#ifndef FORMAT_DIFF_H
#define FORMAT_DIFF_H

#include "tables/file.h"

/* Prints the unified diff of a table and its normal text. They must differ. */
void print_diff(const char *name, const struct file *table, const struct file *text);

#endif
