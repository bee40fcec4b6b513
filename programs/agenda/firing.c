/* A table's firings, one after the other, from as many calls as are needed. */

#include "agenda/firing.h"

uint64_t first_firing(const struct file *table, uint64_t entry, uint64_t from)
{
    if (from == 0 && eremothyn_due(TABLE(table), entry, 0) == 1)
        return 0;
    return eremothyn_next(TABLE(table), entry, from > 0 ? from - 1 : 0);
}

/* Lists the first minute of the calendar. No minute is before it, so each entry is asked whether it fires then. */
static void list_first_minute(struct firings *firings)
{
    const struct file *table = firings->table;
    uint64_t entries = eremothyn_check(TABLE(table));
    firings->count = 0;
    for (uint64_t entry = 0; entry < entries; entry++) {
        if (eremothyn_due(TABLE(table), entry, 0) != 1)
            continue;
        firings->minutes[firings->count] = 0;
        firings->entries[firings->count++] = (uint16_t)entry;
    }
    firings->has_more = true;
    firings->from = 1;
}

/* Lists as many as fit. The last minute may be incomplete: then it is left for the next call. */
static void list(struct firings *firings)
{
    firings->taken = 0;
    if (firings->from == 0) {
        list_first_minute(firings);
        return;
    }
    uint64_t answer = eremothyn_merged_firings(TABLE(firings->table), firings->from - 1, firings->to, firings->minutes, AT_ONCE,
                                               firings->entries, AT_ONCE);
    firings->count = EREMOTHYN_FILLED(answer);
    firings->has_more = EREMOTHYN_HAS_MORE(answer);
    if (!firings->has_more)
        return;
    firings->from = firings->minutes[firings->count - 1];
    while (firings->minutes[firings->count - 1] == firings->from)
        firings->count--;
}

void start_firings(const struct file *table, uint64_t from, uint64_t to, struct firings *firings)
{
    firings->table = table;
    firings->from = from;
    firings->to = to;
    firings->count = 0;
    firings->taken = 0;
    firings->has_more = from <= to;
}

bool next_firing(struct firings *firings, struct firing *firing)
{
    while (firings->taken == firings->count && firings->has_more)
        list(firings);
    if (firings->taken == firings->count)
        return false;
    *firing = (struct firing){ firings->minutes[firings->taken], firings->entries[firings->taken] };
    firings->taken++;
    return true;
}
