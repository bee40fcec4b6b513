/* The subcommand check. */

#ifndef DIAGNOSTICS_CHECK_H
#define DIAGNOSTICS_CHECK_H

#include "arguments/command.h"

extern const struct command check_command;

#endif
