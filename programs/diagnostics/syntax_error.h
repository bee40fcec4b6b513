/* Why a field of a time isn't well formed. */

#ifndef DIAGNOSTICS_SYNTAX_ERROR_H
#define DIAGNOSTICS_SYNTAX_ERROR_H

#include "tables/slice.h"

enum syntax_error_kind {
    NO_SYNTAX_ERROR,
    EMPTY_ELEMENT, /* 1,,2 */
    STAR_IN_LIST,  /* *,5 */
    LONE_STEP,     /* 5/2 */
    OPEN_RANGE,    /* 5- */
    MISSING_STEP,  /* 1-5/ */
    LONG_NUMBER,   /* 00024 */
    NAME_NOT_HERE, /* mon in a field of numbers */
    NAME_AS_STEP,
    UNKNOWN_NAME,
    UNCLEAR,
};

/* What is wrong, and the text that it is about. */
struct syntax_error {
    enum syntax_error_kind kind;
    struct slice text;
};

/* The first error in one of the five fields. The library has refused that field as malformed. */
struct syntax_error syntax_error_of(int field, struct slice text);

#endif
