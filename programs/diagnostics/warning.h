/* Warnings: what a good table may have by mistake. */

#ifndef DIAGNOSTICS_WARNING_H
#define DIAGNOSTICS_WARNING_H

#include "diagnostics/diagnostic.h"

/* Prints the warnings about a good table, in the order of its lines. Returns how many. */
uint64_t print_warnings(struct style style, const char *name, const struct file *table);

#endif
