/* A picture's markup as it is written, piece by piece. */
#ifndef VIEWER_SVG_H
#define VIEWER_SVG_H

#include "output.h"

#include <stdbool.h>
#include <stddef.h>
#include <stdint.h>

enum { SVG_BUFFER = 1 << 16 };

struct svg {
    struct output output;
    size_t used;
    const char *failure; /* NULL, or the reason of the first write that failed */
    char buffer[SVG_BUFFER];
};

/* NULL, or the reason why the file cannot be written; an existing one is replaced only where it begins with `mark`. */
const char *svg_open(struct svg *svg, const char *path, const char *mark);

/* The same. The picture is in its place only from here on, and only if it could be written whole. */
const char *svg_close(struct svg *svg);

/* Room for `length` bytes, at most SVG_BUFFER, at the end of what is written; svg_used tells how many were filled. */
char *svg_room(struct svg *svg, size_t length);
void svg_used(struct svg *svg, size_t length);

/* Markup as it stands, and with its numbers filled in. */
void svg_markup(struct svg *svg, const char *markup);
void svg_format(struct svg *svg, const char *format, ...) __attribute__((format(printf, 2, 3)));

/* A number; one that counts tenths, as in 12.3; and one with commas between its thousands. */
void svg_number(struct svg *svg, int64_t number);
void svg_tenths(struct svg *svg, int64_t tenths);
void svg_grouped(struct svg *svg, int64_t number);

/* Text between or inside of tags, as it is shown, with what markup would take for its own escaped. */
void svg_text(struct svg *svg, const uint8_t *bytes, size_t length);
void svg_string(struct svg *svg, const char *string);

/* The same, shortened with an ellipsis where it might be wider than `room` pixels in a font of `size`. */
void svg_fitted(struct svg *svg, const uint8_t *bytes, size_t length, unsigned size, unsigned room);

/* A letter of a file; a full stop for what is none. */
void svg_letter(struct svg *svg, uint8_t letter);

/* How wide the text is at most in a font of `size`, in pixels; counted no further than just above `enough`. */
unsigned text_width(const uint8_t *bytes, size_t length, unsigned size, unsigned enough);

#endif
