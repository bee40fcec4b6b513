/* UTF-8 characters, and how they are shown. */

#include <stdbool.h>
#include <string.h>

#include "tables/character.h"

/* The number of bytes that a first byte announces; 1 if it starts no longer character. */
static uint64_t announced(uint8_t first)
{
    if (first < 0xc2 || first > 0xf4)
        return 1;
    return first < 0xe0 ? 2 : first < 0xf0 ? 3 : 4;
}

/* Whether a second byte may follow a first one. This excludes long forms of short characters, and halves of UTF-16 pairs. */
static bool may_follow(uint8_t first, uint8_t second)
{
    switch (first) {
    case 0xe0: return second >= 0xa0 && second <= 0xbf;
    case 0xed: return second >= 0x80 && second <= 0x9f;
    case 0xf0: return second >= 0x90 && second <= 0xbf;
    case 0xf4: return second >= 0x80 && second <= 0x8f;
    default: return second >= 0x80 && second <= 0xbf;
    }
}

uint64_t first_character(struct slice text)
{
    uint64_t length = announced(text.start[0]);
    if (length > text.length || (length > 1 && !may_follow(text.start[0], text.start[1])))
        return 1;
    for (uint64_t at = 2; at < length; at++)
        if ((text.start[at] & 0xc0) != 0x80)
            return 1;
    return length;
}

/* Invisible characters: spaces without a width, directions of text, joiners, the byte order mark. */
static const struct {
    uint32_t first;
    uint32_t last;
} UNSEEN[] = { { 0x200b, 0x200f }, { 0x2028, 0x202e }, { 0x2060, 0x206f }, { 0xfeff, 0xfeff } };

/* Whether a character of three bytes is invisible. */
static bool is_unseen(const uint8_t *bytes)
{
    uint32_t number = (uint32_t)(bytes[0] & 0x0f) << 12 | (uint32_t)(bytes[1] & 0x3f) << 6 | (uint32_t)(bytes[2] & 0x3f);
    for (size_t i = 0; i < sizeof UNSEEN / sizeof *UNSEEN; i++)
        if (number >= UNSEEN[i].first && number <= UNSEEN[i].last)
            return true;
    return false;
}

/* Whether a character is shown as it is. */
static bool is_plain(const uint8_t *bytes, uint64_t length)
{
    if (length == 1)
        return bytes[0] >= ' ' && bytes[0] < 127;
    bool is_control = bytes[0] == 0xc2 && bytes[1] < 0xa0;
    return !is_control && !(length == 3 && is_unseen(bytes));
}

char *show_character(char *to, struct slice text, uint64_t length)
{
    if (is_plain(text.start, length)) {
        memcpy(to, text.start, length);
        return to + length;
    }
    *to = text.start[0] == '\t' ? ' ' : '?';
    return to + 1;
}

void show_text(char *to, struct slice text)
{
    while (text.length > 0) {
        uint64_t length = first_character(text);
        to = show_character(to, text, length);
        text = slice_from(text, length);
    }
    *to = '\0';
}
