#include "head.h"

#include "numbers.h"
#include "run.h"
#include "table.h"
#include "text.h"
#include "words.h"

#include <inttypes.h>
#include <string.h>

enum {
    TITLE_HEIGHT = 70,
    TITLE_FONT = 22,
    PAGE_NUMBER_WIDTH = 190,
    FACTS_FONT = 15,
    TAIL_HEIGHT = 46, /* the words, and the strip below them */
    STRIP_HEIGHT = 14,
    BAND_HEIGHT = 44,
    VERDICT_HEIGHT = 88, /* the heading and the line below it */
    MEANING_FONT = 18,
    MEANING_HEIGHT = 25,
    HINT_HEIGHT = 34,
    GAP = 10,
    EDGE = PICTURE_MARGIN + 20,
    BANNER_WIDTH = PICTURE_WIDTH - 2 * PICTURE_MARGIN
};

const char *file_name(const char *path) {
    const char *slash = strrchr(path, '/');
    return slash != NULL && slash[1] != '\0' ? slash + 1 : path;
}

/* How much of the text stands in its first line: as many words as are sure to fit, one at least. */
static size_t line_length(const char *text) {
    enum { ROOM = BANNER_WIDTH - 40 };
    size_t fits = strcspn(text, " ");
    size_t length = fits;
    while (text[length] == ' ') {
        length += 1 + strcspn(text + length + 1, " ");
        if (text_width((const uint8_t *)text, length, MEANING_FONT, ROOM) > ROOM) {
            break;
        }
        fits = length;
    }
    return fits;
}

static const char *behind_line(const char *text, size_t length) {
    return text + length + (text[length] == ' ');
}

static int meaning_lines(const struct picture *picture) {
    int lines = 0;
    for (const char *text = picture->explanation.sentences; *text != '\0';
         text = behind_line(text, line_length(text))) {
        lines++;
    }
    return lines;
}

static bool has_tail(const struct picture *picture) {
    return picture->judgement.verdict.tail > 0;
}

static int banner_height(const struct picture *picture) {
    return VERDICT_HEIGHT + meaning_lines(picture) * MEANING_HEIGHT + HINT_HEIGHT;
}

int head_height(const struct picture *picture, int64_t page) {
    if (is_whole(&picture->judgement)) {
        return TITLE_HEIGHT + (page == 1 && has_tail(picture) ? TAIL_HEIGHT : 0);
    }
    return TITLE_HEIGHT + (page == 1 ? banner_height(picture) : BAND_HEIGHT) + GAP;
}

/* The name that an ABIF file gives its sample, if it can be read. */
static void draw_sample_name(struct picture *picture, unsigned room) {
    const struct file *file = picture->file;
    jt_part name = run_sample_name(file);
    if (name.refusal == 0) {
        svg_markup(&picture->svg, "; sample ");
        svg_fitted(&picture->svg, part_of(file, name.start, name.length), name.length, FACTS_FONT, room);
    }
}

static void draw_facts(struct picture *picture) {
    enum { ROOM_FOR_SAMPLE = 520 };
    struct svg *svg = &picture->svg;
    const struct judgement *judgement = &picture->judgement;
    svg_format(svg, "<text class=\"facts\" x=\"%d\" y=\"58\">", PICTURE_MARGIN);
    if (is_whole(judgement)) {
        svg_format(svg, "%s, whole: ", format_name(judgement->format));
        svg_grouped(svg, (int64_t)judgement->verdict.extent);
        svg_markup(svg, " of ");
    } else if (judgement->format != FORMAT_UNKNOWN) {
        svg_format(svg, "%s, refused: ", format_name(judgement->format));
    }
    svg_grouped(svg, (int64_t)picture->file->length);
    svg_markup(svg, picture->file->length == 1 ? " byte" : " bytes");
    if (judgement->format == FORMAT_ABIF) {
        draw_sample_name(picture, ROOM_FOR_SAMPLE);
    }
    svg_markup(svg, "</text>\n");
}

static void draw_title(struct picture *picture, int64_t page) {
    struct svg *svg = &picture->svg;
    const char *name = file_name(picture->file->path);
    int room = PICTURE_WIDTH - 2 * PICTURE_MARGIN - (picture->paper != NULL ? PAGE_NUMBER_WIDTH : 0);
    svg_format(svg, "<text class=\"title\" x=\"%d\" y=\"34\">", PICTURE_MARGIN);
    svg_fitted(svg, (const uint8_t *)name, strlen(name), TITLE_FONT, (unsigned)room);
    svg_markup(svg, "</text>\n");
    if (picture->paper != NULL) {
        svg_format(svg, "<text class=\"page-number end\" x=\"%d\" y=\"34\">page ", PICTURE_WIDTH - PICTURE_MARGIN);
        svg_grouped(svg, page);
        svg_markup(svg, " of ");
        svg_grouped(svg, picture->pages);
        svg_markup(svg, "</text>\n");
    }
}

static void draw_tag(struct picture *picture, uint64_t entry) {
    const struct file *file = picture->file;
    jt_entry entries[MOST_ENTRIES];
    jt_listed listed = jt_abif_list(file->bytes, file->length, entries, MOST_ENTRIES);
    if (listed.refusal == 0 && entry <= listed.count) {
        svg_markup(&picture->svg, ": ");
        svg_string(&picture->svg, tag_text(entries[entry - 1].name).text);
        svg_format(&picture->svg, " %" PRId32, entries[entry - 1].number);
    }
}

static void draw_id(struct picture *picture, uint64_t entry) {
    const struct file *file = picture->file;
    if (gtc_table_refusal(file) == 0 && entry <= gtc_entries(file)) {
        uint16_t id = gtc_entry_id(file, (uint32_t)entry);
        const struct gtc_row *row = gtc_row_of(id);
        svg_format(&picture->svg, ": %u %s", id, row != NULL ? row->name : "");
    }
}

static void draw_place_of_refusal(struct picture *picture) {
    static const char *const headers[] = {
        [FORMAT_ABIF] = "the header or the directory's place",
        [FORMAT_SFF] = "the header or the index",
        [FORMAT_GTC] = "the header or the table",
    };
    struct svg *svg = &picture->svg;
    const struct judgement *judgement = &picture->judgement;
    uint64_t entry = judgement->verdict.entry;
    svg_format(svg, "<text class=\"entry\" x=\"%d\" y=\"%d\">refused %" PRIu64 " at ", EDGE, TITLE_HEIGHT + 72,
               judgement->verdict.refusal);
    if (entry == 0) {
        svg_markup(svg, headers[judgement->format]);
    } else {
        svg_format(svg, "%s %s", judgement->format == FORMAT_SFF ? "read" : "entry", with_commas(entry).text);
    }
    if (entry != 0 && judgement->format == FORMAT_ABIF) {
        draw_tag(picture, entry);
    } else if (entry != 0 && judgement->format == FORMAT_GTC) {
        draw_id(picture, entry);
    }
    svg_markup(svg, "</text>\n");
}

/* The sentences below each other. */
static int draw_meaning(struct picture *picture, int y) {
    struct svg *svg = &picture->svg;
    for (const char *text = picture->explanation.sentences; *text != '\0';) {
        size_t length = line_length(text);
        svg_format(svg, "<text class=\"meaning\" x=\"%d\" y=\"%d\">", EDGE, y);
        svg_text(svg, (const uint8_t *)text, length);
        svg_markup(svg, "</text>\n");
        text = behind_line(text, length);
        y += MEANING_HEIGHT;
    }
    return y;
}

static void draw_verdict(struct picture *picture, int height, const char *class, int y) {
    struct svg *svg = &picture->svg;
    svg_format(svg, "<rect class=\"banner\" x=\"%d\" y=\"%d\" width=\"%d\" height=\"%d\" fill=\"#000\"/>\n",
               PICTURE_MARGIN, TITLE_HEIGHT, BANNER_WIDTH, height);
    svg_format(svg, "<text class=\"%s\" x=\"%d\" y=\"%d\">%s: %s</text>\n", class, EDGE, y,
               picture->judgement.format == FORMAT_UNKNOWN ? "UNKNOWN" : "REFUSED", picture->explanation.headline);
}

static void draw_banner(struct picture *picture) {
    draw_verdict(picture, banner_height(picture), "verdict", TITLE_HEIGHT + 46);
    bool unknown = picture->judgement.format == FORMAT_UNKNOWN;
    if (!unknown) {
        draw_place_of_refusal(picture);
    }
    int y = draw_meaning(picture, TITLE_HEIGHT + VERDICT_HEIGHT + 16);
    svg_format(&picture->svg, "<text class=\"hint\" x=\"%d\" y=\"%d\">%s</text>\n", EDGE, y + 2,
               unknown ? "Nothing is drawn."
                       : "What cannot be read is hatched. What can be read is drawn, and marked: file refused.");
}

/* A part of the strip: where it starts, how wide it is, and how it is drawn. */
static void draw_strip_part(struct picture *picture, const char *class, int x, int width, const char *look) {
    svg_format(&picture->svg, "<rect class=\"%s\" x=\"%d\" y=\"%d\" width=\"%d\" height=\"%d\" %s stroke=\"#111\"/>\n",
               class, x, TITLE_HEIGHT + 18, width, STRIP_HEIGHT, look);
}

/* What lies behind the end, in words and, to scale, as a dashed box behind the file's own; neither is too narrow to be
   seen. */
static void draw_tail(struct picture *picture) {
    enum { NARROWEST = 4 };
    const jt_verdict *verdict = &picture->judgement.verdict;
    svg_format(&picture->svg, "<text class=\"tail\" x=\"%d\" y=\"%d\">%s</text>\n", PICTURE_MARGIN, TITLE_HEIGHT + 8,
               picture->explanation.sentences);
    double share = (double)verdict->extent / ((double)verdict->extent + (double)verdict->tail);
    int width = NARROWEST + (int)((BANNER_WIDTH - 2 * NARROWEST) * share);
    draw_strip_part(picture, "file-strip", PICTURE_MARGIN, width, "fill=\"#ccc\"");
    draw_strip_part(picture, "tail-strip", PICTURE_MARGIN + width, BANNER_WIDTH - width,
                    "fill=\"none\" stroke-dasharray=\"4 3\"");
}

void draw_head(struct picture *picture, int64_t page) {
    draw_title(picture, page);
    draw_facts(picture);
    if (has_tail(picture) && page == 1) {
        draw_tail(picture);
    } else if (!is_whole(&picture->judgement) && page == 1) {
        draw_banner(picture);
    } else if (!is_whole(&picture->judgement)) {
        draw_verdict(picture, BAND_HEIGHT, "verdict running", TITLE_HEIGHT + 32);
    }
}
