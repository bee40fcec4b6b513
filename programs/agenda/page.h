/* Text for a printer: lines of 72 columns, and pages of 60 lines. */

#ifndef AGENDA_PAGE_H
#define AGENDA_PAGE_H

#include <stdbool.h>
#include <stdint.h>

enum { COLUMNS = 72, PAGE_LINES = 60, MAX_HEADING = 32 };

/* How far the other lines of a text are indented under its first. */
enum { UNDER = 2 };

struct page {
    const char *name; /* at the top of each page, with the span and the number; NULL if there are no pages */
    const char *span;
    uint64_t number;
    int lines;                 /* how many are on this page */
    bool has_gap;              /* a blank line comes next, unless a page starts */
    char heading[MAX_HEADING]; /* comes next; "" if none does */
};

/* Starts a text without pages, or one with a name and a span at the top of each page. */
void start_text(struct page *page);
void start_pages(struct page *page, const char *name, const char *span);

/* Puts a blank line before what comes next, or a heading with blank lines around it. Neither is last on a page. */
void put_gap(struct page *page);
void put_heading(struct page *page, const char *heading);

/*
 * A text after a lead of plain ASCII, in as many lines as it needs. The other lines are indented under the first. It may have a
 * title above it, on lines of its own.
 */
struct block {
    const char *title; /* or NULL */
    const char *lead;
    const char *text;
};

/* Prints a block, on a single page if it fits on one. */
void put_block(struct page *page, struct block block);

/* Whether a block fits on this page, after the gap and the heading that come next. */
bool has_room(const struct page *page, struct block block);

#endif
