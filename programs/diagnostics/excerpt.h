/* A line of a table for a diagnostic, and texts for messages. */

#ifndef DIAGNOSTICS_EXCERPT_H
#define DIAGNOSTICS_EXCERPT_H

#include "tables/character.h"

/* The most columns of a line that are shown. */
enum { EXCERPT_COLUMNS = 76 };

/* A line, or the part of it around a position, and a caret below the position. */
struct excerpt {
    char line[BYTES_A_CHARACTER * EXCERPT_COLUMNS + 1];
    char before[EXCERPT_COLUMNS + 1]; /* the blanks before the caret */
    char caret[EXCERPT_COLUMNS + 1];
};

/* Marks so many bytes from an offset on. The offset may be the line's end. */
void make_excerpt(struct slice line, uint64_t at, uint64_t width, struct excerpt *excerpt);

/* Shows a text in a message. A long one is cut. */
enum { QUOTED_COLUMNS = 40 };
struct quoted {
    char text[BYTES_A_CHARACTER * QUOTED_COLUMNS + 1];
};
struct quoted quote(struct slice text);

#endif
