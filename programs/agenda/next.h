/* The subcommand next. */

#ifndef AGENDA_NEXT_H
#define AGENDA_NEXT_H

#include "arguments/command.h"

extern const struct command next_command;

#endif
