/* The quotes of a setting, or of another line that is no entry. */

#ifndef DIAGNOSTICS_QUOTING_H
#define DIAGNOSTICS_QUOTING_H

#include "tables/slice.h"

enum quoting {
    QUOTE_CLOSED,   /* or there is none at the start of the name and the value */
    QUOTE_OPEN,     /* one isn't closed */
    QUOTE_FOLLOWED, /* a value in quotes has text after it */
};

enum quoting quoting_of(struct slice line);

#endif
