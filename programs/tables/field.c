/* The five fields of a time. */

#include <ctype.h>
#include <string.h>

#include "tables/field.h"

const struct field FIELD[FIELDS] = {
    [MINUTE] = { "minute", 0, 59, "", "" },
    [HOUR] = { "hour", 0, 23, "", "" },
    [DAY] = { "day", 1, 31, "", "" },
    [MONTH] = { "month", 1, 12, "janfebmaraprmayjunjulaugsepoctnovdec", "jan to dec" },
    [WEEKDAY] = { "weekday", 0, 7, "sunmontuewedthufrisat", "sun to sat" },
};

uint64_t last_of(int field, uint64_t dialect)
{
    return field == WEEKDAY && dialect != EREMOTHYN_RISING ? 6 : FIELD[field].last;
}

bool is_name_of(int field, struct slice text)
{
    if (text.length != 3)
        return false;
    for (const char *name = FIELD[field].names; *name != '\0'; name += 3)
        if (tolower(text.start[0]) == name[0] && tolower(text.start[1]) == name[1] && tolower(text.start[2]) == name[2])
            return true;
    return false;
}

bool is_like_field(struct slice word)
{
    bool has_value = false;
    for (uint64_t at = 0; at < word.length; at++) {
        struct slice letters = { word.start + at, 0 };
        while (at + letters.length < word.length && isalpha(letters.start[letters.length]))
            letters.length++;
        if (letters.length > 0) {
            if (!is_name_of(WEEKDAY, letters))
                return false;
            has_value |= word.length > letters.length || isupper(letters.start[0]);
            at += letters.length - 1;
        } else if (memchr("*?,-/#0123456789", word.start[at], 16) == NULL) {
            return false;
        } else {
            has_value |= memchr(",-/#", word.start[at], 4) == NULL;
        }
    }
    return has_value;
}

int words_of_time(struct slice line)
{
    return starts_with(word_of(line, 0), "@") ? 1 : FIELDS;
}
