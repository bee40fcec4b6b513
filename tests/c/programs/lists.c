/*
 * Lists of firings in a C program, in pieces, as the header describes. Prints the firings of entry 0 and of the table after minute
 * 0 and up to 12, for buffers of every possible length, and reports where a macro misreads an answer.
 */
#include <eremothyn.h>
#include <stdio.h>

enum { ENTRIES = 3, PLACES = 16, LAST = 12 };

static const uint8_t table[] = "*/4 * * * * a\n@reboot b\n*/3 * * * * c\n";
static const uint64_t length = sizeof table - 1;

static void one(uint64_t places)
{
    uint32_t run[PLACES];
    uint64_t a = 0, answer;
    do {
        answer = eremothyn_firings(table, length, EREMOTHYN_USER_TABLE, EREMOTHYN_RISING, 0, a, LAST, run, places);
        if (EREMOTHYN_IS_REFUSED(answer)) {
            puts(eremothyn_words(EREMOTHYN_REFUSAL(answer)));
            return;
        }
        for (uint64_t i = 0; i < EREMOTHYN_FILLED(answer); i++)
            printf(" %lu", (unsigned long)run[i]);
        if (EREMOTHYN_HAS_MORE(answer))
            a = run[EREMOTHYN_FILLED(answer) - 1];
    } while (EREMOTHYN_HAS_MORE(answer));
    puts("");
}

static void merged(uint64_t places)
{
    uint32_t minutes[PLACES];
    uint16_t entries[PLACES];
    uint64_t a = 0, answer;
    do {
        answer = eremothyn_merged_firings(table, length, EREMOTHYN_USER_TABLE, EREMOTHYN_RISING, a, LAST, minutes, places, entries,
                                          places);
        if (EREMOTHYN_IS_REFUSED(answer)) {
            puts(eremothyn_words(EREMOTHYN_REFUSAL(answer)));
            return;
        }
        uint64_t last = EREMOTHYN_HAS_MORE(answer) ? minutes[EREMOTHYN_FILLED(answer) - 1] : LAST + 1;
        for (uint64_t i = 0; i < EREMOTHYN_FILLED(answer) && minutes[i] < last; i++)
            printf(" %lu:%u", (unsigned long)minutes[i], (unsigned)entries[i]);
        a = last - 1;
    } while (EREMOTHYN_HAS_MORE(answer));
    puts("");
}

/* Prints an answer: whether it is refused and, if not, how many were filled in and whether there are more. */
static const struct row {
    uint64_t answer;
    int refused;
    uint64_t filled;
    int more;
} rows[] = {
    { 0, 0, 0, 0 },
    { 5, 0, 5, 0 },
    { UINT64_C(4294967295), 0, UINT64_C(4294967295), 0 },
    { EREMOTHYN_REFUSED + 1, 1, 0, 0 },
    { EREMOTHYN_REFUSED + 28, 1, 0, 0 },
    { EREMOTHYN_MORE, 0, 0, 1 },
    { EREMOTHYN_MORE + 5, 0, 5, 1 },
    { EREMOTHYN_MORE + UINT64_C(4294967295), 0, UINT64_C(4294967295), 1 },
};

int main(void)
{
    for (uint64_t places = 1; places <= PLACES; places++)
        one(places);
    for (uint64_t places = ENTRIES + 1; places <= PLACES; places++)
        merged(places);
    for (size_t i = 0; i < sizeof rows / sizeof *rows; i++) {
        const struct row *row = &rows[i];
        if (EREMOTHYN_IS_REFUSED(row->answer) != row->refused)
            printf("row %u: refused\n", (unsigned)i);
        else if (!row->refused && EREMOTHYN_FILLED(row->answer) != row->filled)
            printf("row %u: filled\n", (unsigned)i);
        else if (!row->refused && EREMOTHYN_HAS_MORE(row->answer) != row->more)
            printf("row %u: more\n", (unsigned)i);
    }
    if (EREMOTHYN_IS_REFUSED(EREMOTHYN_NOTHING_WAITS))
        puts("nothing waits: refused");
    return 0;
}
