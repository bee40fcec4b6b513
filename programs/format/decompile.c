/* eremothyn decompile [FILE]: the normal text of a table, from its records. */

#include <errno.h>
#include <inttypes.h>
#include <stdio.h>

#include "arguments/arguments.h"
#include "arguments/message.h"
#include "format/decompile.h"

/* A compiled table is much smaller. The rest is for records that are skipped. */
enum { MAX_INPUT = 1 << 24 };

static const struct option OPTIONS[] = { { NO_OPTION } };

/* Reports which record is refused, or that all are, and why. */
static int refuse(const char *name, uint64_t record, uint64_t refusal)
{
    fprintf(stderr, "%s: ", name);
    if (record > 0)
        fprintf(stderr, "record %" PRIu64 ": ", record);
    fprintf(stderr, "refused %" PRIu64 ": %s\n", refusal, eremothyn_words(refusal));
    return REFUSED;
}

static int decompile(const char *name, const struct arguments *arguments)
{
    (void)arguments; /* There are no options. */
    static uint8_t records[MAX_INPUT + 1];
    static uint8_t text[EREMOTHYN_MAX_TABLE];
    struct buffer input = { records, sizeof records, 0 };
    if (!read_buffer(name, &input))
        return fail(name);
    if (input.length > MAX_INPUT) {
        errno = EFBIG;
        return fail(name);
    }
    uint64_t length = eremothyn_decompile(records, input.length, text, sizeof text);
    if (EREMOTHYN_IS_REFUSED(length))
        return refuse(name, eremothyn_record_fault(records, input.length), EREMOTHYN_REFUSAL(length));
    fwrite(text, 1, length, stdout);
    return flush_output(DONE);
}

static int run(const struct arguments *arguments)
{
    return one_file(arguments, decompile);
}

const struct command decompile_command = {
    "decompile",
    "[FILE]",
    "write the crontab that records mean, in its normal form",
    "Prints the normal text of the table in FILE, or in standard input where none is named, which are\n"
    "records as 'eremothyn compile' writes them. If they are refused, nothing is printed, and standard\n"
    "error says one of these two, the second where no single record is bad:\n"
    "  NAME: record N: refused NUMBER: what is wrong\n"
    "  NAME: refused NUMBER: what is wrong\n"
    "The exit status is 0 if the records are taken, 1 if they are refused, 2 if they can't be read, have\n"
    "more than 16 MiB, or standard output can't be written.\n",
    NO_TABLES,
    OPTIONS,
    run,
};
