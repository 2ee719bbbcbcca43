#include "picture.h"

#include "words.h"

#include <inttypes.h>
#include <string.h>

enum { BOX_FONT = 12, BOX_EDGE = 12 };

void draw_words(struct picture *picture, const char *class, const char *words, int64_t x, int64_t y, unsigned room) {
    struct svg *svg = &picture->svg;
    size_t length = strlen(words);
    unsigned width = text_width((const uint8_t *)words, length, BOX_FONT, room);
    svg_format(svg, "<rect x=\"%" PRId64 "\" y=\"%" PRId64 "\" width=\"%u\" height=\"16\" fill=\"#fff\"/>", x - 4,
               y - 13, (width < room ? width : room) + 8);
    svg_format(svg, "<text class=\"%s\" x=\"%" PRId64 "\" y=\"%" PRId64 "\">", class, x, y);
    svg_fitted(svg, (const uint8_t *)words, length, BOX_FONT, room);
    svg_markup(svg, "</text>\n");
}

int64_t box_words_width(const char *words) {
    return text_width((const uint8_t *)words, strlen(words), BOX_FONT, PLOT_WIDTH);
}

void draw_refused(struct picture *picture, struct refused refused, struct box box) {
    struct svg *svg = &picture->svg;
    char words[192];
    svg_format(svg, "<rect class=\"refused\" data-part=\"%s\" data-refusal=\"%" PRIu64 "\" ", refused.part,
               refused.refusal);
    if (refused.count != 0) {
        svg_format(svg, "data-count=\"%" PRIu64 "\" ", refused.count);
    }
    svg_format(svg,
               "x=\"%" PRId64 "\" y=\"%" PRId64 "\" width=\"%" PRId64 "\" height=\"%" PRId64
               "\" fill=\"url(#hatch)\" stroke=\"#111\"/>",
               box.x, box.y, box.width, box.height);
    const char *said = refused.words != NULL ? refused.words : refusal_words(refused.refusal);
    snprintf(words, sizeof words, "%s: %s (refused %" PRIu64 ")", refused.label,
             picture->lost ? "cannot be found" : said, refused.refusal);
    draw_words(picture, "box", words, box.x + BOX_EDGE, box.y + box.height / 2 + 5,
               (unsigned)(box.width - 2 * BOX_EDGE));
}

void draw_level(struct picture *picture, int64_t tenths) {
    svg_markup(&picture->svg, "<path class=\"grid\" d=\"M0 ");
    svg_tenths(&picture->svg, tenths);
    svg_format(&picture->svg, "h%d\"/>", PLOT_WIDTH);
}

void draw_level_number(struct picture *picture, int64_t tenths, int64_t number) {
    struct svg *svg = &picture->svg;
    svg_markup(svg, "<text class=\"small end\" x=\"-6\" y=\"");
    svg_tenths(svg, tenths + 40);
    svg_markup(svg, "\">");
    svg_grouped(svg, number);
    svg_markup(svg, "</text>\n");
}

void draw_file_refused(struct picture *picture, int x, int64_t y) {
    if (!is_whole(&picture->judgement)) {
        svg_format(&picture->svg, "<text class=\"file-refused end\" x=\"%d\" y=\"%" PRId64 "\">file refused</text>\n",
                   x, y);
    }
}

const char *letter_colour(char letter) {
    switch (letter) {
    case 'A':
    case 'a':
        return "#0c846c";
    case 'C':
    case 'c':
        return "#0c00a0";
    case 'G':
    case 'g':
        return "#000";
    case 'T':
    case 't':
        return "#90300c";
    default:
        return "#595959";
    }
}
