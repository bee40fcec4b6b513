/* What an entry runs, and when by its own clock. */

#include <stdio.h>
#include <string.h>

#include "agenda/date.h"
#include "agenda/job.h"
#include "agenda/words.h"
#include "tables/character.h"

void job_of(const struct file *table, const struct entry *entry, char job[MAX_JOB])
{
    uint8_t shell[EREMOTHYN_MAX_LINE];
    uint8_t input[EREMOTHYN_MAX_LINE];
    struct slice line = text_of(table, entry);
    if (entry->owner.length > 0)
        job += sprintf(job, "%.*s  ", (int)entry->owner.length, (const char *)entry->owner.start);
    uint64_t length = eremothyn_split_command(LINE(line, table->rules), 0, shell, sizeof shell, input, sizeof input);
    if (length > 0)
        show_text(job, (struct slice){ shell, length });
    else
        strcpy(job, "(an empty command)");
}

bool input_of(const struct file *table, const struct entry *entry, uint8_t bytes[EREMOTHYN_MAX_LINE], struct slice *input)
{
    uint8_t shell[EREMOTHYN_MAX_LINE];
    struct slice line = text_of(table, entry);
    uint64_t length = eremothyn_stdin_length(LINE(line, table->rules), 0);
    if (length == EREMOTHYN_NO_INPUT)
        return false;
    eremothyn_split_command(LINE(line, table->rules), 0, shell, sizeof shell, bytes, EREMOTHYN_MAX_LINE);
    *input = (struct slice){ bytes, length };
    return true;
}

void local_of(const struct entry *entry, uint64_t minute, char local[MAX_LOCAL])
{
    uint16_t date[DATE_PARTS];
    char clock[CLOCK_WORDS];
    local[0] = '\0';
    if (!entry->has_clock)
        return;
    eremothyn_date(minute + (uint64_t)(int64_t)entry->offset, date, DATE_PARTS);
    clock_of(entry, clock);
    snprintf(local, MAX_LOCAL, "[%s %02u:%02u %s] ", WEEKDAYS[date[DATE_WEEKDAY]], (unsigned)date[DATE_HOUR],
             (unsigned)date[DATE_MINUTE], clock);
}
