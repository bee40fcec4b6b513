/* The subcommand agenda: what will fire in a span of minutes, for people. */

#ifndef AGENDA_AGENDA_H
#define AGENDA_AGENDA_H

#include "agenda/page.h"
#include "arguments/command.h"
#include "tables/entry.h"

struct agenda {
    struct file table;
    struct entries entries;
    uint64_t from;                     /* the first minute of the span */
    uint64_t to;                       /* its last */
    bool is_local;                     /* whether an entry's local time is shown, too */
    bool fires[EREMOTHYN_MAX_ENTRIES]; /* which entries were shown to fire in the span */
    struct page page;
};

extern const struct command agenda_command;

#endif
