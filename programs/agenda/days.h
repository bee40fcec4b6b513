/* The part of an agenda that goes day by day. */

#ifndef AGENDA_DAYS_H
#define AGENDA_DAYS_H

#include "agenda/agenda.h"

/* Prints the firings of the entries that fire rarely. */
void put_days(struct agenda *agenda);

#endif
