/* Diagnostics: errors and warnings at a position of a table, in the form that compilers use. */

#define _XOPEN_SOURCE 700

#include <inttypes.h>
#include <stdlib.h>
#include <string.h>
#include <unistd.h>

#include "diagnostics/diagnostic.h"
#include "diagnostics/excerpt.h"

#define BOLD "\33[1m"
#define RED "\33[1;31m"
#define GREEN "\33[1;32m"
#define MAGENTA "\33[1;35m"
#define CYAN "\33[1;36m"
#define PLAIN "\33[0m"

static const struct severity_shown {
    const char *word;
    const char *colour;
} SEVERITY[] = { [ERROR] = { "error:", RED }, [WARNING] = { "warning:", MAGENTA } };

struct style style_for(FILE *to)
{
    const char *unwanted = getenv("NO_COLOR");
    const char *terminal = getenv("TERM");
    bool is_wanted = unwanted == NULL || unwanted[0] == '\0';
    bool is_able = terminal != NULL && strcmp(terminal, "dumb") != 0;
    return (struct style){ to, is_wanted && is_able && isatty(fileno(to)), false, false };
}

/* A code for the terminal, if colours are wanted. */
static const char *code(struct style style, const char *code)
{
    return style.has_colours ? code : "";
}

static void print_line(struct style style, const struct diagnostic *diagnostic)
{
    struct excerpt excerpt;
    make_excerpt(diagnostic->line, diagnostic->position.column - 1, diagnostic->width, &excerpt);
    fprintf(style.to, "    %s\n", excerpt.line);
    fprintf(style.to, "    %s%s%s%s\n", excerpt.before, code(style, GREEN), excerpt.caret, code(style, PLAIN));
}

void print_diagnostic(struct style style, const char *name, const struct diagnostic *diagnostic)
{
    const char *plain = code(style, PLAIN);
    const struct position position = diagnostic->position;
    const struct severity_shown *severity = &SEVERITY[diagnostic->severity];
    fprintf(style.to, "%s%s:%" PRIu64 ":%" PRIu64 ":%s ", code(style, BOLD), name, position.line, position.column, plain);
    fprintf(style.to, "%s%s%s ", code(style, severity->colour), severity->word, plain);
    fprintf(style.to, "%s [%s]\n", diagnostic->words, diagnostic->mark);
    if (style.is_short)
        return;
    if (diagnostic->line.length > 0)
        print_line(style, diagnostic);
    if (diagnostic->hint != NULL)
        fprintf(style.to, "    %shint:%s %s\n", code(style, CYAN), plain, diagnostic->hint);
}

const char *hint_once(const char *hint, struct hints *hints)
{
    for (int i = 0; i < hints->count; i++)
        if (hints->given[i] == hint)
            return NULL;
    if (hint != NULL && hints->count < MAX_HINTS)
        hints->given[hints->count++] = hint;
    return hint;
}

void print_count(FILE *to, uint64_t count, const char *one, const char *several)
{
    fprintf(to, "%" PRIu64 " %s", count, count == 1 ? one : several);
}
