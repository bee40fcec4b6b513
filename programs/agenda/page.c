/* Text for a printer. Nothing is stored: the lines of a block are counted before it is printed. */

#include <inttypes.h>
#include <stdio.h>
#include <string.h>

#include "agenda/column.h"
#include "agenda/page.h"

void start_text(struct page *page)
{
    memset(page, 0, sizeof *page);
}

void start_pages(struct page *page, const char *name, const char *span)
{
    start_text(page);
    page->name = name;
    page->span = span;
}

void put_gap(struct page *page)
{
    page->has_gap = true;
}

void put_heading(struct page *page, const char *heading)
{
    page->has_gap = true;
    snprintf(page->heading, sizeof page->heading, "%s", heading);
}

/* How many lines a text needs after a lead. An empty text needs one, too. */
static int count_lines(const char *lead, const char *text)
{
    int columns = COLUMNS - (int)strlen(lead);
    int lines = 1;
    text = after_line(text, first_line(text, columns));
    for (; *text != '\0'; lines++)
        text = after_line(text, first_line(text, columns - UNDER));
    return lines;
}

bool has_room(const struct page *page, struct block block)
{
    int lines = page->has_gap + (page->heading[0] != '\0' ? 2 : 0) + count_lines(block.lead, block.text);
    if (block.title != NULL)
        lines += count_lines("", block.title);
    return page->name == NULL || (page->number > 0 && page->lines + lines <= PAGE_LINES);
}

/* Starts the next page: its name, or as much of its end as fits, its span, its number, and a blank line. */
static void turn(struct page *page)
{
    char number[MAX_HEADING];
    snprintf(number, sizeof number, "page %" PRIu64, ++page->number);
    int columns = COLUMNS - width_of(page->span) - width_of(number) - 4;
    bool is_cut = width_of(page->name) > columns;
    const char *name = is_cut ? last_columns(page->name, columns - 3) : page->name;
    int left = columns - width_of(name) - (is_cut ? 3 : 0);
    printf("%s%s%s  %s%*s  %s\n\n", page->number > 1 ? "\f" : "", is_cut ? "..." : "", name, page->span, left, "", number);
    page->lines = 2;
    page->has_gap = false;
}

/* Ends a line. */
static void end_line(struct page *page)
{
    putchar('\n');
    page->lines++;
}

static void put_line(struct page *page, const char *lead, const char *line, int length)
{
    if (page->name != NULL && page->lines == PAGE_LINES)
        turn(page);
    printf("%s%.*s", lead, length, line);
    end_line(page);
}

static void put_text(struct page *page, const char *lead, const char *text)
{
    char under[COLUMNS];
    int length = first_line(text, COLUMNS - (int)strlen(lead));
    int columns = snprintf(under, sizeof under, "%*s", (int)strlen(lead) + UNDER, "");
    put_line(page, lead, text, length);
    for (text = after_line(text, length); *text != '\0'; text = after_line(text, length)) {
        length = first_line(text, COLUMNS - columns);
        put_line(page, under, text, length);
    }
}

void put_block(struct page *page, struct block block)
{
    if (!has_room(page, block))
        turn(page);
    if (page->has_gap)
        end_line(page);
    page->has_gap = false;
    if (page->heading[0] != '\0') {
        put_line(page, "", page->heading, (int)strlen(page->heading));
        end_line(page);
        page->heading[0] = '\0';
    }
    if (block.title != NULL)
        put_text(page, "", block.title);
    put_text(page, block.lead, block.text);
}
