/* The bytes of a crontab file, for the library. */

#ifndef TABLE_FILE_H
#define TABLE_FILE_H

#include <errno.h>
#include <stdbool.h>
#include <stdint.h>
#include <stdio.h>

#include "eremothyn.h"

/* One byte more than a table may have: so the library refuses a longer file, instead of a part of it. */
struct table_file {
    uint8_t bytes[EREMOTHYN_MAX_TABLE + 1];
    uint64_t length;
};

/* Reads a file. If that fails, errno has the reason. */
static inline bool read_table(const char *name, struct table_file *table)
{
    FILE *file = fopen(name, "rb");
    if (file == NULL)
        return false;
    errno = 0;
    table->length = fread(table->bytes, 1, sizeof table->bytes, file);
    bool whole = !ferror(file);
    int why = errno != 0 ? errno : EIO;
    fclose(file);
    errno = why;
    return whole;
}

#endif
