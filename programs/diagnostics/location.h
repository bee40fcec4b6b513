/* The text at the position of a fault. */

#ifndef DIAGNOSTICS_LOCATION_H
#define DIAGNOSTICS_LOCATION_H

#include "diagnostics/fault.h"

struct location {
    int before;           /* how many words of the line end before it; in a time, the number of the field */
    struct slice word;    /* from the position up to a blank; empty at the line's end */
    struct slice element; /* up to a comma */
    struct slice rest;    /* up to the line's end, without the blanks there */
};

struct location location_of(const struct fault *fault);

/* How many bytes a fault is about, from its position on. */
uint64_t extent_of(const struct fault *fault);

#endif
