/* The % that ends a command for the shell. */

#ifndef DIAGNOSTICS_PERCENT_H
#define DIAGNOSTICS_PERCENT_H

#include "tables/slice.h"

/* That sign, if it is probably not meant to end the command; otherwise an empty slice. */
struct slice doubtful_percent(struct slice command);

#endif
