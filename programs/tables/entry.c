/*
 * The entries of a table. The library gets each line as a table of its own, so one pass is enough. Only the clock of CRON_TZ
 * carries over to the next lines.
 */

#include <string.h>

#include "tables/entry.h"

int set_size(uint64_t set)
{
    int values = 0;
    for (; set != 0; set &= set - 1)
        values++;
    return values;
}

/* The offsets and lengths of the sets in a record of a time. The flags follow the last set. */
static const struct {
    int at;
    int bytes;
} SETS[FIELDS] = { [MINUTE] = { 4, 8 }, [HOUR] = { 12, 4 }, [DAY] = { 16, 4 }, [MONTH] = { 20, 2 }, [WEEKDAY] = { 22, 1 } };
enum { FLAGS_AT = 23, KIND_AT = 2, KIND_AT_BOOT = 2 };

struct slice write_time(struct slice line, const struct entry *entry, uint8_t text[EREMOTHYN_MAX_LINE + 2])
{
    const uint8_t *end = entry->owner.length > 0 ? entry->owner.start : entry->command.start;
    uint64_t length = (uint64_t)(end - line.start);
    memcpy(text, line.start, length);
    memcpy(text + length, "x\n", 2);
    return (struct slice){ text, length + 2 };
}

/* Reads the times of an entry from its record. */
static void read_times(struct slice line, uint64_t dialect, struct entry *entry)
{
    uint8_t text[EREMOTHYN_MAX_LINE + 2];
    uint8_t record[EREMOTHYN_MAX_LINE];
    struct slice time = write_time(line, entry, text);
    eremothyn_compile(time.start, time.length, dialect, record, sizeof record);
    entry->at_boot = record[KIND_AT] == KIND_AT_BOOT;
    for (int field = 0; field < FIELDS && !entry->at_boot; field++) {
        for (int byte = 0; byte < SETS[field].bytes; byte++)
            entry->times.sets[field] |= (uint64_t)record[SETS[field].at + byte] << 8 * byte;
        entry->times.stars[field] = record[FLAGS_AT] >> field & 1;
    }
}

/* The user column of an entry whose line is a table of its own: its parts, and the signs between them. */
static struct slice owner_of(struct slice line, struct rules rules)
{
    uint64_t group = eremothyn_group_length(LINE(line, rules), 0);
    uint64_t class = eremothyn_class_length(LINE(line, rules), 0);
    uint64_t length = eremothyn_user_length(LINE(line, rules), 0) + (group > 0 ? 1 + group : 0) + (class > 0 ? 1 + class : 0);
    return (struct slice){ line.start + eremothyn_user_offset(LINE(line, rules), 0), length };
}

/* Reads an entry, except its line number and its clock. */
static void read_entry(struct slice line, struct rules rules, struct entry *entry)
{
    uint64_t command = eremothyn_command_offset(LINE(line, rules), 0);
    entry->command = (struct slice){ line.start + command, eremothyn_command_length(LINE(line, rules), 0) };
    entry->owner = owner_of(line, rules);
    read_times(line, rules.dialect, entry);
}

/* The number that two digits mean. */
static int two_digits(const uint8_t *digits)
{
    return 10 * (digits[0] - '0') + (digits[1] - '0');
}

/* Takes the clock from a line that sets it: +HH:MM or -HH:MM. */
static void take_clock(struct slice line, struct rules rules, struct entry *clock)
{
    static const uint8_t NAME[] = "CRON_TZ";
    uint64_t at = eremothyn_setting_name_offset(LINE(line, rules), 1);
    if (EREMOTHYN_IS_REFUSED(at))
        return;
    struct slice name = { line.start + at, eremothyn_setting_name_length(LINE(line, rules), 1) };
    if (!is_same_slice(name, (struct slice){ NAME, sizeof NAME - 1 }))
        return;
    const uint8_t *value = line.start + eremothyn_setting_value_offset(LINE(line, rules), 1);
    int offset = 60 * two_digits(value + 1) + two_digits(value + 4);
    clock->has_clock = true;
    clock->offset = value[0] == '-' ? -offset : offset;
}

void read_entries(const struct file *table, struct entries *entries)
{
    struct entry before = { 0 };
    uint64_t offset = 0;
    entries->count = 0;
    while (offset < table->length) {
        struct slice line = line_at(table, offset);
        before.line++;
        offset += line.length;
        if (eremothyn_check(LINE(line, table->rules)) == 0) {
            take_clock(line, table->rules, &before);
            continue;
        }
        struct entry *entry = &entries->all[entries->count++];
        *entry = before;
        read_entry(line, table->rules, entry);
    }
}

struct slice text_of(const struct file *table, const struct entry *entry)
{
    const uint8_t *start = entry->command.start;
    while (start > table->bytes && start[-1] != '\n')
        start--;
    return line_at(table, (uint64_t)(start - table->bytes));
}

struct day_rule day_rule_of(const struct entry *entry)
{
    const struct times *times = &entry->times;
    struct day_rule rule = { times->sets[DAY], times->sets[WEEKDAY], !times->stars[DAY] && !times->stars[WEEKDAY] };
    if (rule.is_either && (rule.days == EVERY_DAY || rule.weekdays == EVERY_WEEKDAY))
        rule = (struct day_rule){ EVERY_DAY, EVERY_WEEKDAY, false };
    return rule;
}

/* Whether two entries that don't fire at boot fire at the same times. */
static bool is_same_time(const struct entry *one, const struct entry *other)
{
    const uint64_t *ones = one->times.sets, *others = other->times.sets;
    struct day_rule rule = day_rule_of(one), rules = day_rule_of(other);
    bool is_same_rule = rule.days == rules.days && rule.weekdays == rules.weekdays && rule.is_either == rules.is_either;
    bool is_same_clock = one->offset == other->offset && ones[MINUTE] == others[MINUTE] && ones[HOUR] == others[HOUR];
    return is_same_clock && is_same_rule && ones[MONTH] == others[MONTH];
}

bool is_same_entry(const struct entry *one, const struct entry *other)
{
    if (!is_same_slice(one->owner, other->owner) || !is_same_slice(one->command, other->command))
        return false;
    return one->at_boot || other->at_boot ? one->at_boot == other->at_boot : is_same_time(one, other);
}
