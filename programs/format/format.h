/* The subcommand format. */

#ifndef FORMAT_FORMAT_H
#define FORMAT_FORMAT_H

#include "arguments/command.h"

extern const struct command format_command;

#endif
