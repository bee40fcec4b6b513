/* The subcommand compile. */

#ifndef FORMAT_COMPILE_H
#define FORMAT_COMPILE_H

#include "arguments/command.h"

extern const struct command compile_command;

#endif
