/* The text at the position of a fault. */

#include <stddef.h>

#include "diagnostics/location.h"
#include "tables/field.h"

struct location location_of(const struct fault *fault)
{
    struct location location = { 0, { NULL, 0 }, { NULL, 0 }, { NULL, 0 } };
    struct slice rest;
    if (fault->line.length == 0)
        return location;
    uint64_t offset = fault->position.column - 1;
    struct slice word = word_from(fault->line, 0);
    while (word.length > 0 && end_of_word(fault->line, word) <= offset) {
        location.before++;
        word = word_from(fault->line, end_of_word(fault->line, word));
    }
    location.word = word_from(fault->line, offset);
    location.element = cut_at(',', location.word, &rest);
    location.rest = trimmed(slice_from(fault->line, (uint64_t)(location.word.start - fault->line.start)));
    return location;
}

uint64_t extent_of(const struct fault *fault)
{
    struct location location = location_of(fault);
    switch (fault->refusal) {
    case EREMOTHYN_FIELD_MALFORMED:
    case EREMOTHYN_UNKNOWN_WORD:
    case EREMOTHYN_BAD_SETTING:
    case EREMOTHYN_USER_MALFORMED: return location.word.length;
    case EREMOTHYN_OFFSET_MALFORMED: return location.rest.length;
    case EREMOTHYN_OUT_OF_LIMITS:
    case EREMOTHYN_RANGE_REVERSED:
    case EREMOTHYN_STEP_ZERO: return location.element.length;
    default: return 1;
    }
}
