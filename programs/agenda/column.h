/* Texts in columns. Their characters are shown as tables/character.h says, and each takes one column. */

#ifndef AGENDA_COLUMN_H
#define AGENDA_COLUMN_H

/* The number of columns of a text. */
int width_of(const char *text);

/* The last columns of a text, as many as are wanted. */
const char *last_columns(const char *text, int columns);

/*
 * How many bytes of a text go on its first line, which has so many columns. The line ends with a word, or in the middle of one that
 * is too long. Blanks at its end aren't counted.
 */
int first_line(const char *text, int columns);

/* Where the next line starts: after a line of so many bytes, and after the blanks that follow. */
const char *after_line(const char *text, int length);

#endif
