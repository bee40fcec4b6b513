/* Texts in columns. */

#include <stdbool.h>
#include <string.h>

#include "agenda/column.h"

/* The number of bytes of a text's first character. */
static int character(const char *text)
{
    int length = 1;
    while (((unsigned char)text[length] & 0xc0) == 0x80)
        length++;
    return length;
}

int width_of(const char *text)
{
    int columns = 0;
    for (; *text != '\0'; text += character(text))
        columns++;
    return columns;
}

const char *last_columns(const char *text, int columns)
{
    for (int width = width_of(text); width > columns; width--)
        text += character(text);
    return text;
}

int first_line(const char *text, int columns)
{
    int length = 0;
    int word_end = 0;
    for (int taken = 0; text[length] != '\0'; taken++) {
        bool is_blank = text[length] == ' ';
        if (is_blank && length > 0 && text[length - 1] != ' ')
            word_end = length;
        if (!is_blank && taken >= columns)
            return word_end > 0 ? word_end : length;
        length += character(text + length);
    }
    return length > 0 && text[length - 1] == ' ' ? word_end : length;
}

const char *after_line(const char *text, int length)
{
    return text + length + strspn(text + length, " ");
}
