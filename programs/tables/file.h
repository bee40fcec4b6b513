/* Reading files, and the lines of a crontab. */

#ifndef TABLES_FILE_H
#define TABLES_FILE_H

#include <stdbool.h>
#include <stdint.h>

#include "eremothyn.h"
#include "tables/slice.h"

/* A buffer, and how many of its bytes are filled. */
struct buffer {
    uint8_t *bytes;
    uint64_t capacity;
    uint64_t length;
};

/* Reads a file, or standard input if its name is "-", as far as it fits. If that fails, errno has the reason. */
bool read_buffer(const char *name, struct buffer *buffer);

/* How a table is read. */
struct rules {
    uint64_t kind;
    uint64_t dialect;
};

/*
 * A table's bytes, and how they are read. The buffer holds one byte more than a table may have, so the library refuses a longer
 * file.
 */
struct file {
    uint8_t bytes[EREMOTHYN_MAX_TABLE + 1];
    uint64_t length;
    struct rules rules;
};

/* Reads the file of a table. */
bool read_file(const char *name, struct rules rules, struct file *file);

/* The first arguments of a call of the library: for a table, and for a line of one. */
#define TABLE(file) (file)->bytes, (file)->length, (file)->rules.kind, (file)->rules.dialect
#define LINE(part, rules) (part).start, (part).length, (rules).kind, (rules).dialect

/* Some editors write this at the start of a UTF-8 file. */
#define BYTE_ORDER_MARK "\xef\xbb\xbf"

/* The line that starts at an offset, which is before the file's end. It has its newline, if there is one. */
struct slice line_at(const struct file *file, uint64_t offset);

/* A file's lines, one after the other: where the next one starts, and the number of the last one, from 1. */
struct lines {
    const struct file *file;
    uint64_t offset;
    uint64_t number;
};

/* Takes the next line. Returns false if there is none. */
bool next_line(struct lines *lines, struct slice *line);

#endif
