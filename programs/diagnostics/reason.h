/* The reason of a fault, with more than its number says if the line has more. */

#ifndef DIAGNOSTICS_REASON_H
#define DIAGNOSTICS_REASON_H

#include "diagnostics/fault.h"

/* Enough for any reason, and a zero byte. */
enum { MAX_REASON = 512 };

void reason_of(const struct fault *fault, char words[MAX_REASON]);

#endif
