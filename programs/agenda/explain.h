/* The subcommand explain. */

#ifndef AGENDA_EXPLAIN_H
#define AGENDA_EXPLAIN_H

#include "arguments/command.h"

extern const struct command explain_command;

#endif
