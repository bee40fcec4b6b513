/* The subcommand decompile. */

#ifndef FORMAT_DECOMPILE_H
#define FORMAT_DECOMPILE_H

#include "arguments/command.h"

extern const struct command decompile_command;

#endif
