/* Reading files, and the lines of a crontab. */

#include <errno.h>
#include <stdio.h>
#include <string.h>

#include "tables/file.h"

bool read_buffer(const char *name, struct buffer *buffer)
{
    bool named = strcmp(name, "-") != 0;
    FILE *from = named ? fopen(name, "rb") : stdin;
    if (from == NULL)
        return false;
    errno = 0;
    buffer->length = fread(buffer->bytes, 1, buffer->capacity, from);
    bool whole = !ferror(from);
    int why = errno != 0 ? errno : EIO;
    if (named)
        fclose(from);
    errno = why;
    return whole;
}

bool read_file(const char *name, struct rules rules, struct file *file)
{
    struct buffer buffer = { file->bytes, sizeof file->bytes, 0 };
    bool whole = read_buffer(name, &buffer);
    file->length = buffer.length;
    file->rules = rules;
    return whole;
}

struct slice line_at(const struct file *file, uint64_t offset)
{
    const uint8_t *start = file->bytes + offset;
    uint64_t left = file->length - offset;
    const uint8_t *newline = memchr(start, '\n', left);
    return (struct slice){ start, newline != NULL ? (uint64_t)(newline - start) + 1 : left };
}

bool next_line(struct lines *lines, struct slice *line)
{
    if (lines->offset >= lines->file->length)
        return false;
    *line = line_at(lines->file, lines->offset);
    lines->offset += line->length;
    lines->number++;
    return true;
}
