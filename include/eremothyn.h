/*
 * Eremothyn: a crontab engine. C99 and C++; link with liberemothyn.a.
 *
 * All minutes are UTC: those that you announce, ask about and get. Minute 0 is 1970-01-01 00:00, a Thursday, and
 * EREMOTHYN_LAST_MINUTE is 9999-12-31 23:59. The calendar is the proleptic Gregorian one. If time_t counts seconds since
 * 1970, as in POSIX, time(NULL) / 60 is the current minute.
 *
 * A setting CRON_TZ in a table gives the entries after it, up to the next CRON_TZ, an offset from UTC: how far their clock
 * is ahead, as +05:30 or -03:00. These entries fire by that local clock. Entries before the first CRON_TZ fire by UTC.
 * There are no named time zones and there is no daylight saving.
 *
 * A buffer is a pointer and a length, which counts bytes, or 32-bit or 16-bit numbers. Every other parameter and every
 * answer is a uint64_t. You may pass any values and any bytes: a call that has no answer is refused. A refusal is
 * EREMOTHYN_REFUSED plus its number; EREMOTHYN_IS_REFUSED tests for it. A refused call changes no buffer, and no call
 * changes a table. Buffers of one call must not overlap, and numbers must be aligned as in any array. A pointer may be NULL
 * if its length is 0. No call keeps a pointer or allocates memory. A call needs at most some 12 KB of stack, and
 * eremothyn_merged_firings, which keeps all entries at once, some 84 KB. Threads may share a table; any other buffer is for
 * one call at a time. "Writes over the front of a buffer" means that the places after what is written keep what they had.
 *
 *     uint64_t minute = eremothyn_minute_of_date(2000, 2, 29, 0, 0);
 *     if (EREMOTHYN_IS_REFUSED(minute))
 *         puts(eremothyn_words(EREMOTHYN_REFUSAL(minute)));
 */

#ifndef EREMOTHYN_H
#define EREMOTHYN_H

#include <stdint.h>

#ifdef __cplusplus
extern "C" {
#endif

/*
 * The first number rises if a call, a constant or an answer changes, the middle one if something is added, the last one for
 * fixes.
 */
#define EREMOTHYN_VERSION "1.14.0"

/* The last minute of the calendar, 9999-12-31 23:59. */
#define EREMOTHYN_LAST_MINUTE UINT64_C(4223371679)

/*
 * Limits of a table: bytes, bytes in a line without its newline, entries, bytes in a name of the user column. A buffer of
 * EREMOTHYN_MAX_LINE bytes is long enough for either part of a command.
 */
#define EREMOTHYN_MAX_TABLE 49152
#define EREMOTHYN_MAX_LINE 1000
#define EREMOTHYN_MAX_ENTRIES 512
#define EREMOTHYN_MAX_NAME 32

/* The most bytes that a compiled table can have: 7 for each 3 of its normal form. That many it has if every line is A=. */
#define EREMOTHYN_MAX_COMPILED 114688

/*
 * The kind of a table. In a system table, such as /etc/crontab, a user column is between the time of each entry and its
 * command: user, user:group, user/class or user:group/class. Any number but 0 is a system table.
 */
#define EREMOTHYN_USER_TABLE UINT64_C(0)
#define EREMOTHYN_SYSTEM_TABLE UINT64_C(1)

/*
 * The dialect of a table. In the rising dialect a range from high to low is refused, and weekdays are 0 to 7, where 0 and 7
 * are Sunday. In the wrapping dialect such a range runs to the field's last value and on from its first, and the step
 * counts on: the hours 22-3/2 are 22, 0 and 2. Weekdays are 0 to 6, and sun is 0 at either end of a range. Everything else
 * is the same in both. Any number but 0 is the wrapping dialect.
 */
#define EREMOTHYN_RISING UINT64_C(0)
#define EREMOTHYN_WRAPPING UINT64_C(1)

/* A refusal is this plus its number. */
#define EREMOTHYN_REFUSED UINT64_C(4294967296)

/* The two calls that list firings add this to the count if more remain. */
#define EREMOTHYN_MORE UINT64_C(8589934592)

/* Whether an answer is a refusal, and the number of one that is. */
#define EREMOTHYN_IS_REFUSED(answer) ((answer) % EREMOTHYN_MORE > EREMOTHYN_REFUSED)
#define EREMOTHYN_REFUSAL(answer) ((answer) - (EREMOTHYN_REFUSED))

/* For a list that isn't refused: how many firings were written, and whether more remain. */
#define EREMOTHYN_FILLED(answer) ((answer) % EREMOTHYN_MORE)
#define EREMOTHYN_HAS_MORE(answer) ((answer) >= EREMOTHYN_MORE)

/* Nothing waits, at the front or at a place; the command has no standard input. These aren't refusals. */
#define EREMOTHYN_NOTHING_WAITS EREMOTHYN_REFUSED
#define EREMOTHYN_NO_INPUT EREMOTHYN_REFUSED

/*
 * Refusals of a table, with the place of the fault. 1 comes first, then the first bad line decides. On a line 2, 3 and 27
 * come first, in comments too. Then the line is read from left to right, a setting's form before its value, and 12 comes
 * last. 26 is given only if no line is bad. An empty table is good. Lines and columns count from 1.
 */
#define EREMOTHYN_TABLE_TOO_LONG UINT64_C(1)    /* over 49,152 bytes; line 0, column 0 */
#define EREMOTHYN_LINE_TOO_LONG UINT64_C(2)     /* over 1,000 bytes without its newline; column 1,001 */
#define EREMOTHYN_NUL_BYTE UINT64_C(3)          /* byte 0 in a line; its column */
#define EREMOTHYN_TOO_FEW_FIELDS UINT64_C(4)    /* fewer than five fields; the column after the line's last byte */
#define EREMOTHYN_FIELD_MALFORMED UINT64_C(5)   /* malformed field; its first byte */
#define EREMOTHYN_OUT_OF_LIMITS UINT64_C(6)     /* a number outside the field's limits; the element's first byte */
#define EREMOTHYN_RANGE_REVERSED UINT64_C(7)    /* range from high to low, in the rising dialect; the same place */
#define EREMOTHYN_STEP_ZERO UINT64_C(8)         /* step 0; the same place */
#define EREMOTHYN_NO_COMMAND UINT64_C(9)        /* no command; the column after the line's last byte */
#define EREMOTHYN_UNKNOWN_WORD UINT64_C(10)     /* unknown @ word; the @ */
#define EREMOTHYN_BAD_SETTING UINT64_C(11)      /* malformed setting; the first non-blank byte */
#define EREMOTHYN_TOO_MANY_ENTRIES UINT64_C(12) /* the 513th entry; column 1 */
#define EREMOTHYN_USER_MALFORMED UINT64_C(20)   /* malformed user column, in a system table; its first byte */
#define EREMOTHYN_OFFSET_MALFORMED UINT64_C(25) /* CRON_TZ isn't an offset; after = and blanks */
#define EREMOTHYN_TABLE_CUT UINT64_C(26)        /* last byte isn't a newline; the last line, the column after its last byte */
#define EREMOTHYN_CONTROL_BYTE UINT64_C(27)     /* byte 1 to 8, 11 to 31 or 127 in a line; its column */

/* Refusals of an entry, a minute, a setting, a normal form, records or a queue. */
#define EREMOTHYN_NO_SUCH_ENTRY UINT64_C(13)   /* no entry of that number */
#define EREMOTHYN_NOT_ON_CALENDAR UINT64_C(14) /* the minute or the date is not on the calendar */
#define EREMOTHYN_AT_BOOT_ONLY UINT64_C(15)    /* next firing, or a list of them, of an @reboot entry */
#define EREMOTHYN_NEVER UINT64_C(16)           /* no minute of the 400-year cycle matches */
#define EREMOTHYN_PAST_THE_END UINT64_C(17)    /* would fire, but not before the calendar ends */
#define EREMOTHYN_TOO_SHORT UINT64_C(18)       /* a buffer is too short for what is written */
#define EREMOTHYN_NO_SETTING UINT64_C(19)      /* the line is no setting, or doesn't exist; or there is none from it on */
#define EREMOTHYN_TEXT_TOO_LONG UINT64_C(21)   /* a line of the normal form, or all of it, would exceed a table's limits */
#define EREMOTHYN_RECORD_CUT UINT64_C(22)      /* fewer bytes than a record's length says, or a length below 2 */
#define EREMOTHYN_RECORD_UNKNOWN UINT64_C(23)  /* a kind of record below 32,768 that isn't 1 to 4 */
#define EREMOTHYN_RECORD_NO_LINE UINT64_C(24)  /* a record that no line of a table, of any length, could mean */
#define EREMOTHYN_NOT_A_QUEUE UINT64_C(28)     /* not a queue of this table's entries, or a buffer too short for all of them */

/* The text of a refusal, for a message. This is its only copy. */
static inline const char *eremothyn_words(uint64_t refusal)
{
    switch (refusal) {
    case EREMOTHYN_TABLE_TOO_LONG: return "the table has more than 49152 bytes";
    case EREMOTHYN_LINE_TOO_LONG: return "the line has more than 1000 bytes";
    case EREMOTHYN_NUL_BYTE: return "the line has a byte 0";
    case EREMOTHYN_TOO_FEW_FIELDS: return "fewer than five time fields";
    case EREMOTHYN_FIELD_MALFORMED:
        return "not a time field: *, */step, or a list of n, n-m and n-m/step, with names for months and weekdays";
    case EREMOTHYN_OUT_OF_LIMITS:
        return "a number outside its limits: minute 0-59, hour 0-23, day 1-31, month 1-12, weekday 0-7, or 0-6 in the "
               "wrapping dialect";
    case EREMOTHYN_RANGE_REVERSED: return "a range from high to low, which only the wrapping dialect has";
    case EREMOTHYN_STEP_ZERO: return "a step of 0";
    case EREMOTHYN_NO_COMMAND: return "no command after the time, or in a system table after the user";
    case EREMOTHYN_UNKNOWN_WORD: return "not one of @reboot, @yearly, @annually, @monthly, @weekly, @daily, @midnight and @hourly";
    case EREMOTHYN_BAD_SETTING: return "neither an entry nor a setting, which is name=value";
    case EREMOTHYN_TOO_MANY_ENTRIES: return "more than 512 entries";
    case EREMOTHYN_NO_SUCH_ENTRY: return "the table has no entry of this number";
    case EREMOTHYN_NOT_ON_CALENDAR: return "no such minute or date from 1970-01-01 00:00 to 9999-12-31 23:59";
    case EREMOTHYN_AT_BOOT_ONLY: return "fires at boot only";
    case EREMOTHYN_NEVER: return "never fires";
    case EREMOTHYN_PAST_THE_END: return "fires no more before the year 10000";
    case EREMOTHYN_TOO_SHORT: return "a buffer is too short for what is written";
    case EREMOTHYN_NO_SETTING: return "no setting there";
    case EREMOTHYN_USER_MALFORMED:
        return "not a user column: user, user:group, user/class or user:group/class, each of 1 to 32 letters, digits, "
               "_, - and ., and - not first";
    case EREMOTHYN_OFFSET_MALFORMED:
        return "not an offset from UTC: CRON_TZ is -12:00 to +14:00, as +05:30, with a sign and two digits each";
    case EREMOTHYN_TABLE_CUT: return "no newline at the end: the table may have been cut";
    case EREMOTHYN_CONTROL_BYTE: return "the line has a control byte: of those below 32, and 127, it may have tabs only";
    case EREMOTHYN_TEXT_TOO_LONG: return "in normal form a line has more than 1000 bytes, or the table more than 49152";
    case EREMOTHYN_RECORD_CUT: return "the record is cut short, or its length is below 2";
    case EREMOTHYN_RECORD_UNKNOWN: return "an unknown kind of record, and not one that may be skipped";
    case EREMOTHYN_RECORD_NO_LINE: return "the record says what no line of a table could mean";
    case EREMOTHYN_NOT_A_QUEUE: return "not a queue of this table's entries, or room for too few of them";
    default: return "no refusal has this number";
    }
}

/*
 * Returns the minute of a date: year 1970 to 9999, month 1 to 12, day 1 to the month's last, hour 0 to 23, minute 0 to 59.
 * Refused with EREMOTHYN_NOT_ON_CALENDAR if there is no such date.
 */
uint64_t eremothyn_minute_of_date(uint64_t year, uint64_t month, uint64_t day, uint64_t hour, uint64_t minute);

/*
 * The parts of a minute's date. For a local date, add the offset to the minute first. Each call is refused with
 * EREMOTHYN_NOT_ON_CALENDAR if the minute is above EREMOTHYN_LAST_MINUTE. Otherwise it returns:
 */

/* 1970 to 9999. */
uint64_t eremothyn_year(uint64_t minute);

/* 1 to 12. */
uint64_t eremothyn_month(uint64_t minute);

/* Day of the month, 1 to 31. */
uint64_t eremothyn_day(uint64_t minute);

/* 0 to 23. */
uint64_t eremothyn_hour(uint64_t minute);

/* 0 to 59. */
uint64_t eremothyn_minute_of_hour(uint64_t minute);

/* Sunday 0 to Saturday 6. */
uint64_t eremothyn_weekday(uint64_t minute);

/*
 * Writes all six over the front of a buffer, in about the time of one call: year, month, day, hour, minute and weekday.
 * Returns 6. Refused with EREMOTHYN_NOT_ON_CALENDAR, then with EREMOTHYN_TOO_SHORT if the buffer has fewer than six places.
 *
 *     uint16_t date[6];
 *     eremothyn_date((uint64_t)time(NULL) / 60, date, 6);
 */
uint64_t eremothyn_date(uint64_t minute, uint16_t *run, uint64_t run_length);

/*
 * Tables. A table is the bytes of a crontab. Two numbers after it say how it is read: its kind, EREMOTHYN_USER_TABLE or
 * EREMOTHYN_SYSTEM_TABLE, and its dialect, EREMOTHYN_RISING or EREMOTHYN_WRAPPING. (eremothyn_normal_form and
 * eremothyn_compile take no kind.) Entries are numbered from 0 in file order. Every call that takes a table reads it again.
 * All but the two that locate a fault refuse a bad table as eremothyn_check does, before anything else.
 */

/* Returns how many entries the table has, 0 to EREMOTHYN_MAX_ENTRIES. */
uint64_t eremothyn_check(const uint8_t *table, uint64_t table_length, uint64_t kind, uint64_t dialect);

/* Return the line and the column of the table's fault; 0 if the table is good, and for EREMOTHYN_TABLE_TOO_LONG. */
uint64_t eremothyn_fault_line(const uint8_t *table, uint64_t table_length, uint64_t kind, uint64_t dialect);
uint64_t eremothyn_fault_column(const uint8_t *table, uint64_t table_length, uint64_t kind, uint64_t dialect);

/*
 * Returns 1 if an entry is due at a minute, and otherwise 0. It is 0 for an @reboot entry, and while the entry's local
 * minute is off the calendar, which happens for some hours at the calendar's ends. Refused with EREMOTHYN_NO_SUCH_ENTRY,
 * then EREMOTHYN_NOT_ON_CALENDAR.
 */
uint64_t eremothyn_due(const uint8_t *table, uint64_t table_length, uint64_t kind, uint64_t dialect, uint64_t entry,
                       uint64_t minute);

/*
 * Returns the next firing of an entry: the least minute after the given one at which it is due. Refused with
 * EREMOTHYN_NO_SUCH_ENTRY, EREMOTHYN_NOT_ON_CALENDAR, EREMOTHYN_AT_BOOT_ONLY, EREMOTHYN_NEVER or EREMOTHYN_PAST_THE_END,
 * the first that holds.
 */
uint64_t eremothyn_next(const uint8_t *table, uint64_t table_length, uint64_t kind, uint64_t dialect, uint64_t entry,
                        uint64_t minute);

/*
 * Lists the firings of an entry after minute a and up to minute b, b included. Writes them over the front of a buffer, each
 * once, rising, as many as fit. Returns how many it wrote, plus EREMOTHYN_MORE if a firing up to b didn't fit. If b isn't
 * after a, or nothing fires, the list is empty: that an entry never fires, or not before the calendar ends, is no refusal
 * here.
 *
 *     uint32_t run[100];
 *     uint64_t answer = eremothyn_firings(table, length, EREMOTHYN_USER_TABLE, EREMOTHYN_RISING, 0, a, b, run, 100);
 *     for (uint64_t i = 0; !EREMOTHYN_IS_REFUSED(answer) && i < EREMOTHYN_FILLED(answer); i++)
 *         printf("%lu\n", (unsigned long)run[i]);
 *
 * b - a places are always enough, and any number from 1 on works: if more remain, call again with the last minute written
 * as a. Of a buffer of 4,294,967,296 places or more, the first 4,294,967,295 are used.
 *
 * Refused with EREMOTHYN_NO_SUCH_ENTRY, EREMOTHYN_NOT_ON_CALENDAR for a, then for b, or EREMOTHYN_AT_BOOT_ONLY, the first
 * that holds.
 */
uint64_t eremothyn_firings(const uint8_t *table, uint64_t table_length, uint64_t kind, uint64_t dialect, uint64_t entry, uint64_t a,
                           uint64_t b, uint32_t *run, uint64_t run_length);

/*
 * Lists the firings of all entries after minute a and up to minute b, ordered by minute and then by entry. Writes the
 * minutes over the front of one buffer, and the numbers of the entries to the same places of the other. If the two differ
 * in length, the shorter counts. Everything else is as in eremothyn_firings. @reboot entries never appear.
 *
 * With one place, the call says which entry fires first after a, and when. If nothing fires up to b, it returns 0.
 *
 *     uint32_t minute;
 *     uint16_t entry;
 *     uint64_t answer = eremothyn_merged_firings(table, length, EREMOTHYN_USER_TABLE, EREMOTHYN_RISING, now,
 *                                                EREMOTHYN_LAST_MINUTE, &minute, 1, &entry, 1);
 *     if (!EREMOTHYN_IS_REFUSED(answer) && EREMOTHYN_FILLED(answer) == 1)
 *         printf("%lu minutes\n", (unsigned long)(minute - now));
 *
 * How long may a daemon sleep? Waking once a minute costs nothing, and announcing every minute keeps the mark of the queue
 * (see below) at the clock. If now was announced, the daemon may also sleep up to that firing. Then it must announce the
 * minute of the firing itself, even if it wakes late: a later one may be more than 180 above the mark, and the job is
 * missed.
 *
 * For a whole list, pass at least one place more than the table has entries; EREMOTHYN_MAX_ENTRIES + 1 is enough for any
 * table. If more remain, some entries of the last minute written may be missing: drop its places, and call again with the
 * minute before it as a.
 *
 * Refused with EREMOTHYN_NOT_ON_CALENDAR for a, then for b.
 */
uint64_t eremothyn_merged_firings(const uint8_t *table, uint64_t table_length, uint64_t kind, uint64_t dialect, uint64_t a,
                                  uint64_t b, uint32_t *minutes, uint64_t minutes_length, uint16_t *entries,
                                  uint64_t entries_length);

/*
 * Returns the line of an entry, counted from 1: for messages, and to find the settings before it. Refused with
 * EREMOTHYN_NO_SUCH_ENTRY.
 */
uint64_t eremothyn_entry_line(const uint8_t *table, uint64_t table_length, uint64_t kind, uint64_t dialect, uint64_t entry);

/*
 * Return where the command of an entry starts in the table, counted from 0, and its length, 1 or more and below
 * EREMOTHYN_MAX_LINE. This is the raw command, with every % and backslash. It ends with its line. Refused with
 * EREMOTHYN_NO_SUCH_ENTRY.
 */
uint64_t eremothyn_command_offset(const uint8_t *table, uint64_t table_length, uint64_t kind, uint64_t dialect, uint64_t entry);
uint64_t eremothyn_command_length(const uint8_t *table, uint64_t table_length, uint64_t kind, uint64_t dialect, uint64_t entry);

/*
 * Splits the command of an entry. Writes the shell line over the front of one buffer and the standard input over the front
 * of the other. Returns the length of the shell line; eremothyn_stdin_length returns that of the input. Refused with
 * EREMOTHYN_NO_SUCH_ENTRY, or with EREMOTHYN_TOO_SHORT if either buffer is too short. The length of the command is always
 * enough for either buffer, and so is EREMOTHYN_MAX_LINE. Without input the second buffer may have length 0.
 */
uint64_t eremothyn_split_command(const uint8_t *table, uint64_t table_length, uint64_t kind, uint64_t dialect, uint64_t entry,
                                 uint8_t *shell, uint64_t shell_length, uint8_t *input, uint64_t input_length);

/*
 * Returns the length of an entry's standard input, or EREMOTHYN_NO_INPUT if its command has none; empty input is 0. Refused
 * with EREMOTHYN_NO_SUCH_ENTRY.
 */
uint64_t eremothyn_stdin_length(const uint8_t *table, uint64_t table_length, uint64_t kind, uint64_t dialect, uint64_t entry);

/*
 * Return where the user, the group and the class of an entry start in the table, counted from 0, and their lengths, at most
 * EREMOTHYN_MAX_NAME. Both are 0 if a part is absent. In a user table all three are absent. Refused with
 * EREMOTHYN_NO_SUCH_ENTRY.
 */
uint64_t eremothyn_user_offset(const uint8_t *table, uint64_t table_length, uint64_t kind, uint64_t dialect, uint64_t entry);
uint64_t eremothyn_user_length(const uint8_t *table, uint64_t table_length, uint64_t kind, uint64_t dialect, uint64_t entry);
uint64_t eremothyn_group_offset(const uint8_t *table, uint64_t table_length, uint64_t kind, uint64_t dialect, uint64_t entry);
uint64_t eremothyn_group_length(const uint8_t *table, uint64_t table_length, uint64_t kind, uint64_t dialect, uint64_t entry);
uint64_t eremothyn_class_offset(const uint8_t *table, uint64_t table_length, uint64_t kind, uint64_t dialect, uint64_t entry);
uint64_t eremothyn_class_length(const uint8_t *table, uint64_t table_length, uint64_t kind, uint64_t dialect, uint64_t entry);

/*
 * Return where the name and the value of the setting on a line start in the table, counted from 0, and their lengths,
 * without quotes. Lines count from 1. Refused with EREMOTHYN_NO_SETTING if the line is no setting or doesn't exist: a good
 * table has as many lines as newlines.
 */
uint64_t eremothyn_setting_name_offset(const uint8_t *table, uint64_t table_length, uint64_t kind, uint64_t dialect, uint64_t line);
uint64_t eremothyn_setting_name_length(const uint8_t *table, uint64_t table_length, uint64_t kind, uint64_t dialect, uint64_t line);
uint64_t eremothyn_setting_value_offset(const uint8_t *table, uint64_t table_length, uint64_t kind, uint64_t dialect,
                                        uint64_t line);
uint64_t eremothyn_setting_value_length(const uint8_t *table, uint64_t table_length, uint64_t kind, uint64_t dialect,
                                        uint64_t line);

/*
 * Returns the first line, from the given one on and including it, that is a setting; line 0 means from the start. Refused
 * with EREMOTHYN_NO_SETTING if there is none. A loop over all settings, or over those before an entry:
 *
 *     uint64_t line = eremothyn_next_setting(table, length, EREMOTHYN_USER_TABLE, EREMOTHYN_RISING, 1);
 *     for (; !EREMOTHYN_IS_REFUSED(line) && line < end;
 *          line = eremothyn_next_setting(table, length, EREMOTHYN_USER_TABLE, EREMOTHYN_RISING, line + 1))
 *         take(line);
 *
 * with eremothyn_entry_line(..) as the end. If a name is set twice, the later setting counts for the entries after it.
 */
uint64_t eremothyn_next_setting(const uint8_t *table, uint64_t table_length, uint64_t kind, uint64_t dialect, uint64_t line);

/*
 * Writes the normal form of a user table over the front of a buffer. Returns the length of the text. There is no kind: the
 * bytes are always read as a user table. The text means the same in either dialect.
 *
 * The text has a line for each setting and each entry, in order, and no other line. A setting is name=value. A name or
 * value is quoted only if it would be read otherwise without quotes, with double quotes if it has none itself. An entry is
 * its five fields, or @reboot, and its raw command, with single spaces between them. A field that begins with a star is a
 * star, or a star with the smallest step that gives its values. Any other field is its values, rising, with commas; Sunday
 * is 0.
 *
 * Read back, the text means the same: settings and entries in the same order, with their names, values, times and commands,
 * and with the same fields that begin with a star. Tables that mean the same have the same text, so a normal form is its
 * own normal form.
 *
 * Refused with EREMOTHYN_TEXT_TOO_LONG if a line of the text would have more than EREMOTHYN_MAX_LINE bytes without its
 * newline, or all of it more than EREMOTHYN_MAX_TABLE; then with EREMOTHYN_TOO_SHORT if the buffer is too short.
 * EREMOTHYN_MAX_TABLE bytes are always enough.
 */
uint64_t eremothyn_normal_form(const uint8_t *table, uint64_t table_length, uint64_t dialect, uint8_t *text, uint64_t text_length);

/*
 * Records: a user table compiled for a narrow link, and read back at the other end. A record is a length of two bytes, a
 * kind of two bytes and a body. The length counts the kind and the body. Kind 1 is an entry with its times as bits, kind 2
 * an @reboot entry, kind 3 a setting, kind 4 the setting CRON_TZ. `man 5 eremothyn-records` describes every byte.
 */

/*
 * Compiles a user table to records, written over the front of a buffer. Returns the length of the records. There is no
 * kind: the bytes are always read as a user table. Tables that mean the same have the same records, whatever their
 * dialects.
 *
 * Refused with EREMOTHYN_TEXT_TOO_LONG if eremothyn_normal_form is; then with EREMOTHYN_TOO_SHORT if the buffer is too
 * short. EREMOTHYN_MAX_COMPILED bytes are always enough.
 */
uint64_t eremothyn_compile(const uint8_t *table, uint64_t table_length, uint64_t dialect, uint8_t *records,
                           uint64_t records_length);

/*
 * Writes the normal form of the table that records mean over the front of a buffer. Returns the length of the text. A
 * compiled table gives the text that eremothyn_normal_form gives, and that text compiles to the same records. Records of
 * the kinds from 32,768 on are skipped.
 *
 * Refused for the first bad record with EREMOTHYN_RECORD_CUT, EREMOTHYN_RECORD_UNKNOWN or EREMOTHYN_RECORD_NO_LINE, the
 * first that holds. If no record is bad, refused with EREMOTHYN_TOO_MANY_ENTRIES; then with EREMOTHYN_TEXT_TOO_LONG, as
 * eremothyn_normal_form is; then with EREMOTHYN_TOO_SHORT. EREMOTHYN_MAX_TABLE bytes are always enough.
 */
uint64_t eremothyn_decompile(const uint8_t *records, uint64_t records_length, uint8_t *text, uint64_t text_length);

/* Returns the number of the first bad record, from 1, skipped ones counted; 0 if none is bad. */
uint64_t eremothyn_record_fault(const uint8_t *records, uint64_t records_length);

/*
 * The queue: the waiting jobs of a table, in a buffer that the caller passes as room. An entry is queued at most once, and
 * the queue is first in, first out. EREMOTHYN_ROOM(entries) bytes are always enough. Don't write to them: they belong to
 * the library. Each call is refused with EREMOTHYN_NOT_A_QUEUE if the buffer is too short for all entries of the table.
 *
 * A queue keeps the numbers of entries and a mark. When the table changes, a number means another entry: pass both tables
 * to eremothyn_queue_reload before any other call with the new one. A queue of another table is accepted if its numbers
 * fit, and then the wrong job is popped. A fresh queue forgets the waiting jobs, and @reboot jobs run again.
 *
 * The mark is the minute up to which fixed entries have been judged; a fresh queue has none. An entry is fixed if neither
 * its minute nor its hour field begins with a star: it has set times of the day. @daily is fixed, @hourly and @reboot
 * aren't. Because of the mark, a fixed entry isn't missed if the next announced minute is up to 180 above the mark, and
 * isn't run twice if it is less than 180 below. All other entries depend only on the minute that is announced.
 *
 * These minutes count from the mark, not from where the clock was when somebody set it: a daemon that last announced five
 * minutes ago misses jobs after a step of 2:56 hours. Announce every minute. After a step, first announce the minutes that
 * really passed, by a clock that nobody sets, then the minute that the clock shows: then no fixed entry is missed by a step
 * of up to 180 minutes. examples/site_daemon.c does so.
 */
#define EREMOTHYN_ROOM(entries) (8 * (entries) + 64)

/* Makes a fresh queue, whatever the buffer held: the @reboot entries in file order, and no mark. Returns how many wait. */
uint64_t eremothyn_queue_init(const uint8_t *table, uint64_t table_length, uint64_t kind, uint64_t dialect, uint8_t *room,
                              uint64_t room_length);

/*
 * Announces a minute: each entry that is called and isn't waiting joins at the back, in file order. Returns how many
 * joined. Minutes may repeat, go back and jump. Which entries are called depends on how far the minute is from the mark,
 * both in UTC:
 *
 *   - There is no mark, or the minute is more than 180 above it, or 180 or more below: all entries that are due at the
 *     minute. It becomes the mark.
 *   - The minute is 1 to 180 above: fixed entries that are due at any minute after the mark, up to this one; other entries
 *     that are due at this one. It becomes the mark.
 *   - The minute is the mark, or up to 179 below: no fixed entries; other entries that are due at the minute. The mark
 *     stays.
 *
 * Refused with EREMOTHYN_NOT_A_QUEUE if the bytes are no queue, as zeros aren't, or if the queue has an entry that the
 * table doesn't have, or one entry twice, or a mark off the calendar; then with EREMOTHYN_NOT_ON_CALENDAR.
 */
uint64_t eremothyn_queue_tick(const uint8_t *table, uint64_t table_length, uint64_t kind, uint64_t dialect, uint8_t *room,
                              uint64_t room_length, uint64_t minute);

/*
 * Removes the front entry and returns its number, or EREMOTHYN_NOTHING_WAITS. Refused with EREMOTHYN_NOT_A_QUEUE as
 * eremothyn_queue_tick is.
 */
uint64_t eremothyn_queue_pop(const uint8_t *table, uint64_t table_length, uint64_t kind, uint64_t dialect, uint8_t *room,
                             uint64_t room_length);

/*
 * Returns the number of the entry at a place of the queue, 0 the front, or EREMOTHYN_NOTHING_WAITS after its end. Changes
 * nothing. Refused with EREMOTHYN_NOT_A_QUEUE as eremothyn_queue_tick is.
 */
uint64_t eremothyn_queue_entry(const uint8_t *table, uint64_t table_length, uint64_t kind, uint64_t dialect, const uint8_t *room,
                               uint64_t room_length, uint64_t place);

/*
 * Replaces the table of a queue by a changed one, of the same kind and dialect. A queued entry keeps its place as the entry
 * of the new table with the same meaning: the same values in its time, with the same fields that begin with a star, and the
 * same offset from UTC, or @reboot, under any offset; the same user column; and the same command, byte by byte. So a queued
 * job stays as long as any entry has its meaning. If several have it, the first becomes the first, the second the second,
 * and so on; if the new table has fewer, the rest become the last. An entry is queued once: of two that become the same,
 * the one nearer to the front stays. An entry without a counterpart is dropped. None joins, not even a new @reboot entry,
 * and the mark stays. Returns how many are queued. The bytes after the queue keep what they had, and the same table changes
 * no byte.
 *
 * The buffer must be a queue of the old table, and long enough for all entries of the new one;
 * EREMOTHYN_ROOM(EREMOTHYN_MAX_ENTRIES) bytes are enough for any two. Refused for the old table, then for the new one, then
 * with EREMOTHYN_NOT_A_QUEUE. If it is refused, keep using the old table.
 */
uint64_t eremothyn_queue_reload(const uint8_t *old_table, uint64_t old_length, const uint8_t *new_table, uint64_t new_length,
                                uint64_t kind, uint64_t dialect, uint8_t *room, uint64_t room_length);

#ifdef __cplusplus
}
#endif

#endif
