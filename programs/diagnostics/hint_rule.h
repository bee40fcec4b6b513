/* Hints for habits from other crons, from editors and from the shell. */

#ifndef DIAGNOSTICS_HINT_RULE_H
#define DIAGNOSTICS_HINT_RULE_H

#include "diagnostics/fault.h"

/* The hint of the first rule that applies to a fault, or NULL. */
const char *hint_for(const struct fault *fault);

#endif
