/* UTF-8 characters, and how they are shown: each takes one column, and none moves the cursor. */

#ifndef TABLES_CHARACTER_H
#define TABLES_CHARACTER_H

#include "tables/slice.h"

enum { BYTES_A_CHARACTER = 4 };

/* The number of bytes of a text's first character. An invalid byte counts as one character. */
uint64_t first_character(struct slice text);

/*
 * Writes the first character of a text, which has so many bytes. Returns where the next one goes. A tab becomes a blank. Control
 * characters, invalid bytes and invisible characters become question marks.
 */
char *show_character(char *to, struct slice text, uint64_t length);

/* Writes a whole text and a zero byte. The text never gets longer. */
void show_text(char *to, struct slice text);

#endif
