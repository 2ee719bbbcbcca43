/* Text that comes from outside, as in names of files, samples and reads: what may be shown of it. Terminals and
   pictures go by this one cleaner. */
#ifndef VIEWER_TEXT_H
#define VIEWER_TEXT_H

#include <stddef.h>
#include <stdint.h>
#include <stdio.h>

/* What stands for a character that is not shown, and for a byte that belongs to none: U+FFFD. */
#define TEXT_UNSHOWN "\xEF\xBF\xBD"

/* What a text that is shortened ends in: U+2026. */
#define TEXT_ELLIPSIS "\xE2\x80\xA6"

/* The character at the front of the text, as it is shown: in UTF-8, with no zero in it. */
struct character {
    char shown[5];
    uint32_t code; /* of what is shown */
    size_t length; /* bytes of the text that it takes */
};

/* The character at the front of `length` bytes, not none. Control characters, codes that turn the direction of writing
   or cannot be seen, and bytes that are no UTF-8 are shown as U+FFFD. */
struct character text_character(const uint8_t *bytes, size_t length);

/* Prints the text as it is shown; of a string, all of it. */
void print_text(FILE *out, const uint8_t *bytes, size_t length);
void print_string(FILE *out, const char *string);

/* A number with commas between its thousands. */
struct grouped {
    char text[32];
};

struct grouped with_commas(uint64_t number);

/* How wide a character is at most, in thousandths of the font's size. */
unsigned character_width(uint32_t code);

#endif
