/* The published tables of tags, for words: what a tag is, and which profiles have it. What is found in a file is the
   library's to say. */
#ifndef VIEWER_TAGS_H
#define VIEWER_TAGS_H

#include "profile.h"

#include <stdbool.h>
#include <stdint.h>

/* A tag, or those from the first number to the last. */
struct tag_row {
    const char *name;
    int32_t first;
    int32_t last;
    const char *type;     /* as the tables print it */
    const char *profiles; /* those that have it, a digit for each */
    const char *description;
};

/* The row of a tag, or NULL for one that stands in no table. */
const struct tag_row *tag_row_of(uint32_t name, int32_t number);

/* Whether a tag is of the analysis programs alone, which add it after the run (Tables 9 and 10). */
bool is_added_later(const struct tag_row *row);

/* Whether a tag stands in tables of this kind of file alone. */
bool stands_in_only(const struct tag_row *row, enum kind kind);

#endif
