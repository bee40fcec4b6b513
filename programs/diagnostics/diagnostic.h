/* Diagnostics: errors and warnings at a position of a table, in the form that compilers use. */

#ifndef DIAGNOSTICS_DIAGNOSTIC_H
#define DIAGNOSTICS_DIAGNOSTIC_H

#include <stdbool.h>
#include <stdint.h>
#include <stdio.h>

#include "tables/file.h"

/* Lines and columns count from 1, columns in bytes. Both are 0 for the whole table. */
struct position {
    uint64_t line;
    uint64_t column;
};

enum severity { ERROR, WARNING };

struct diagnostic {
    enum severity severity;
    struct position position;
    const char *words;
    const char *mark;  /* the number of a refusal, or the name of a warning */
    struct slice line; /* without its newline; empty for the whole table */
    uint64_t width;    /* how many of its bytes are marked, from the position on */
    const char *hint;  /* or NULL */
};

/* Where diagnostics go, and how they look. */
struct style {
    FILE *to;
    bool has_colours;
    bool is_short; /* one line for each */
    bool is_quiet; /* no counts */
};

/* Everything is printed, in colours if the terminal has them. */
struct style style_for(FILE *to);

void print_diagnostic(struct style style, const char *name, const struct diagnostic *diagnostic);

/* The hints that were given for a table. Each is given once. */
enum { MAX_HINTS = 64 };
struct hints {
    const char *given[MAX_HINTS];
    int count;
};

/* Returns a hint that wasn't given before, and remembers it; otherwise NULL. Hints are compared by their addresses. */
const char *hint_once(const char *hint, struct hints *hints);

/* Prints a number of things: 1 entry, 2 entries. The second word is for all numbers but 1. */
void print_count(FILE *to, uint64_t count, const char *one, const char *several);

#endif
