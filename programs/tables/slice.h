/* Slices: some of a text's bytes, and what is often asked of them. */

#ifndef TABLES_SLICE_H
#define TABLES_SLICE_H

#include <stdbool.h>
#include <stddef.h>
#include <stdint.h>

struct slice {
    const uint8_t *start;
    uint64_t length;
};

bool is_same_slice(struct slice one, struct slice other);

/* Whether a text starts with another. */
bool starts_with(struct slice text, const char *start);

bool ends_in_backslash(struct slice text);

/* Whether a text contains some bytes, one after the other. */
bool has_bytes(struct slice text, const char *bytes, size_t length);

/* A space or a tab. */
bool is_blank(uint8_t byte);

/* Whether a text is one or more digits. */
bool is_digits(struct slice text);

/* Whether a text is one or more letters. */
bool is_letters(struct slice text);

/* The number that up to four digits mean. */
uint64_t number_of(struct slice digits);

/* A text from an offset to its end. */
struct slice slice_from(struct slice text, uint64_t offset);

struct slice without_newline(struct slice line);

/* A text without the blanks at its start, and one without those at its end. */
struct slice without_indent(struct slice text);
struct slice trimmed(struct slice text);

/* The text before the first such byte. The rest is the text after it; if there is no such byte, the rest starts at NULL. */
struct slice cut_at(char byte, struct slice text, struct slice *rest);

/* The word of a line at an offset, from there on; if a blank is there, the next word. */
struct slice word_from(struct slice line, uint64_t offset);

/* The offset in a line at which one of its words ends. */
uint64_t end_of_word(struct slice line, struct slice word);

/* A word of a line by its number, from 0. It is empty if the line has fewer words. */
struct slice word_of(struct slice line, int number);

#endif
