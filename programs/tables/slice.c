/* Slices of texts. */

#include <ctype.h>
#include <string.h>

#include "tables/slice.h"

bool is_same_slice(struct slice one, struct slice other)
{
    return one.length == other.length && (one.length == 0 || memcmp(one.start, other.start, one.length) == 0);
}

bool starts_with(struct slice text, const char *start)
{
    size_t length = strlen(start);
    return text.length >= length && memcmp(text.start, start, length) == 0;
}

bool ends_in_backslash(struct slice text)
{
    return text.length > 0 && text.start[text.length - 1] == '\\';
}

bool has_bytes(struct slice text, const char *bytes, size_t length)
{
    for (uint64_t at = 0; at + length <= text.length; at++)
        if (memcmp(text.start + at, bytes, length) == 0)
            return true;
    return false;
}

bool is_blank(uint8_t byte)
{
    return byte == ' ' || byte == '\t';
}

bool is_digits(struct slice text)
{
    uint64_t at = 0;
    while (at < text.length && isdigit(text.start[at]))
        at++;
    return at > 0 && at == text.length;
}

bool is_letters(struct slice text)
{
    uint64_t at = 0;
    while (at < text.length && isalpha(text.start[at]))
        at++;
    return at > 0 && at == text.length;
}

uint64_t number_of(struct slice digits)
{
    uint64_t number = 0;
    for (uint64_t at = 0; at < digits.length; at++)
        number = 10 * number + (uint64_t)(digits.start[at] - '0');
    return number;
}

struct slice slice_from(struct slice text, uint64_t offset)
{
    return (struct slice){ text.start + offset, text.length - offset };
}

struct slice without_newline(struct slice line)
{
    if (line.length > 0 && line.start[line.length - 1] == '\n')
        line.length--;
    return line;
}

struct slice without_indent(struct slice text)
{
    while (text.length > 0 && is_blank(text.start[0]))
        text = slice_from(text, 1);
    return text;
}

struct slice trimmed(struct slice text)
{
    while (text.length > 0 && is_blank(text.start[text.length - 1]))
        text.length--;
    return text;
}

struct slice cut_at(char byte, struct slice text, struct slice *rest)
{
    const uint8_t *found = text.length > 0 ? memchr(text.start, byte, text.length) : NULL;
    if (found == NULL) {
        *rest = (struct slice){ NULL, 0 };
        return text;
    }
    uint64_t before = (uint64_t)(found - text.start);
    *rest = slice_from(text, before + 1);
    return (struct slice){ text.start, before };
}

struct slice word_from(struct slice line, uint64_t offset)
{
    while (offset < line.length && is_blank(line.start[offset]))
        offset++;
    uint64_t end = offset;
    while (end < line.length && !is_blank(line.start[end]))
        end++;
    return (struct slice){ line.start + offset, end - offset };
}

uint64_t end_of_word(struct slice line, struct slice word)
{
    return (uint64_t)(word.start - line.start) + word.length;
}

struct slice word_of(struct slice line, int number)
{
    struct slice word = word_from(line, 0);
    for (int i = 0; i < number; i++)
        word = word_from(line, end_of_word(line, word));
    return word;
}
