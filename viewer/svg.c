#include "svg.h"

#include "text.h"

#include <errno.h>
#include <stdarg.h>
#include <stdio.h>
#include <string.h>
#include <unistd.h>

const char *svg_open(struct svg *svg, const char *path, const char *mark) {
    svg->used = 0;
    svg->failure = NULL;
    return output_open(&svg->output, path, mark);
}

static void flush(struct svg *svg) {
    size_t done = 0;
    while (done < svg->used && svg->failure == NULL) {
        ssize_t written = write(svg->output.descriptor, svg->buffer + done, svg->used - done);
        if (written >= 0) {
            done += (size_t)written;
        } else if (errno != EINTR) {
            svg->failure = strerror(errno);
        }
    }
    svg->used = 0;
}

const char *svg_close(struct svg *svg) {
    flush(svg);
    return output_close(&svg->output, svg->failure);
}

char *svg_room(struct svg *svg, size_t length) {
    if (SVG_BUFFER - svg->used < length) {
        flush(svg);
    }
    return svg->buffer + svg->used;
}

void svg_used(struct svg *svg, size_t length) {
    svg->used += length;
}

static void append(struct svg *svg, const char *bytes, size_t length) {
    memcpy(svg_room(svg, length), bytes, length);
    svg_used(svg, length);
}

void svg_markup(struct svg *svg, const char *markup) {
    append(svg, markup, strlen(markup));
}

void svg_format(struct svg *svg, const char *format, ...) {
    enum { MOST = 2048 };
    va_list arguments;
    va_start(arguments, format);
    int length = vsnprintf(svg_room(svg, MOST), MOST, format, arguments);
    va_end(arguments);
    svg_used(svg, length < 0 ? 0 : length < MOST ? (size_t)length : MOST - 1);
}

static uint64_t magnitude(int64_t number) {
    return number < 0 ? -(uint64_t)number : (uint64_t)number;
}

void svg_number(struct svg *svg, int64_t number) {
    char digits[24];
    char *end = digits + sizeof digits;
    char *start = end;
    uint64_t rest = magnitude(number);
    do {
        *--start = (char)('0' + rest % 10);
        rest /= 10;
    } while (rest != 0);
    if (number < 0) {
        *--start = '-';
    }
    append(svg, start, (size_t)(end - start));
}

void svg_grouped(struct svg *svg, int64_t number) {
    if (number < 0) {
        svg_markup(svg, "-");
    }
    svg_markup(svg, with_commas(magnitude(number)).text);
}

void svg_tenths(struct svg *svg, int64_t tenths) {
    uint64_t parts = magnitude(tenths);
    if (tenths < 0) {
        svg_markup(svg, "-");
    }
    svg_number(svg, (int64_t)(parts / 10));
    if (parts % 10 != 0) {
        char fraction[] = {'.', (char)('0' + parts % 10)};
        append(svg, fraction, sizeof fraction);
    }
}

static const char *escape_of(char character) {
    switch (character) {
    case '&':
        return "&amp;";
    case '<':
        return "&lt;";
    case '>':
        return "&gt;";
    case '"':
        return "&quot;";
    default:
        return NULL;
    }
}

static void append_character(struct svg *svg, const char *shown) {
    const char *escape = escape_of(shown[0]);
    svg_markup(svg, escape != NULL ? escape : shown);
}

void svg_text(struct svg *svg, const uint8_t *bytes, size_t length) {
    while (length > 0) {
        struct character character = text_character(bytes, length);
        append_character(svg, character.shown);
        bytes += character.length;
        length -= character.length;
    }
}

void svg_string(struct svg *svg, const char *string) {
    svg_text(svg, (const uint8_t *)string, strlen(string));
}

enum { THOUSANDTHS = 1000 };

unsigned text_width(const uint8_t *bytes, size_t length, unsigned size, unsigned enough) {
    uint64_t width = 0;
    while (length > 0 && width <= (uint64_t)enough * THOUSANDTHS) {
        struct character character = text_character(bytes, length);
        width += character_width(character.code) * size;
        bytes += character.length;
        length -= character.length;
    }
    return (unsigned)((width + THOUSANDTHS - 1) / THOUSANDTHS);
}

/* As much of the front as leaves room for the ellipsis. */
static size_t fitting_length(const uint8_t *bytes, size_t length, unsigned size, unsigned room) {
    size_t fits = 0;
    uint64_t width = (uint64_t)THOUSANDTHS * size;
    while (fits < length) {
        struct character character = text_character(bytes + fits, length - fits);
        width += character_width(character.code) * size;
        if (width > (uint64_t)room * THOUSANDTHS) {
            break;
        }
        fits += character.length;
    }
    return fits;
}

void svg_fitted(struct svg *svg, const uint8_t *bytes, size_t length, unsigned size, unsigned room) {
    if (text_width(bytes, length, size, room) <= room) {
        svg_text(svg, bytes, length);
        return;
    }
    svg_text(svg, bytes, fitting_length(bytes, length, size, room));
    svg_markup(svg, TEXT_ELLIPSIS);
}

void svg_letter(struct svg *svg, uint8_t letter) {
    char shown[] = {letter > ' ' && letter <= '~' ? (char)letter : '.', '\0'};
    append_character(svg, shown);
}
