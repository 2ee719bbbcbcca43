#include "chart.h"
#include "draw.h"
#include "sheet.h"

#include "memory.h"
#include "numbers.h"
#include "text.h"
#include "words.h"

#include <inttypes.h>
#include <stdlib.h>
#include <string.h>

enum { PART_FONT = 13, PART_TEXT_LEFT = 48, NOTE_HEIGHT = 20, MOST_NOTES = 12, NOTE_LENGTH = 200, FOLD_HEIGHT = 64 };

/* An ABIF picture: its chart, the parts that the file has beside its channels, and what is to be said of them. */
struct abif_picture {
    struct chart *chart;
    int part_count;
    const struct series *parts[BASES + 1];
    int note_count;
    char notes[MOST_NOTES][NOTE_LENGTH];
};

/* The dye's name and its wavelength, if the file has them. */
static void draw_dye(struct chart *chart, int channel) {
    enum { NAME_WIDTH = 400 };
    struct svg *svg = &chart->picture->svg;
    const struct file *file = chart->picture->file;
    jt_part dye = jt_abif_text(file->bytes, file->length, tag_name("DyeN"), channel + 1);
    int64_t wavelength = first_value(file, "DyeW", channel + 1, INT64_MIN);
    if (dye.refusal == 0) {
        svg_markup(svg, "dye ");
        svg_fitted(svg, part_of(file, dye.start, dye.length), dye.length, PART_FONT, NAME_WIDTH);
        svg_markup(svg, ", ");
    }
    if (wavelength != INT64_MIN) {
        svg_grouped(svg, wavelength);
        svg_markup(svg, " nm, ");
    }
}

static void draw_channel_part(struct chart *chart, int channel, struct box box) {
    struct svg *svg = &chart->picture->svg;
    const struct run *run = chart->run;
    const struct series *series = &run->channels[channel];
    if (series->refusal != 0) {
        draw_refused_channel(chart, channel, box);
        return;
    }
    svg_format(svg,
               "<path d=\"M%" PRId64 " %" PRId64 "h36\" stroke=\"%s\" stroke-dasharray=\"%s\" stroke-width=\"2.5\"/>",
               box.x + 4, box.y + 12, channel_colour(run, channel), channel_dashes(run, channel));
    svg_format(svg, "<text x=\"%" PRId64 "\" y=\"%" PRId64 "\"><tspan font-weight=\"bold\">%s</tspan> ",
               box.x + PART_TEXT_LEFT, box.y + 16, series->tag);
    if (run->bases[channel] != 0) {
        svg_format(svg, "base <tspan font-weight=\"bold\">%c</tspan>, ", run->bases[channel]);
    }
    draw_dye(chart, channel);
    svg_format(svg, "%s, ", run->raw ? "raw" : "analysed");
    svg_grouped(svg, (int64_t)series->count);
    svg_markup(svg, series->count == 1 ? " point" : " points");
    svg_markup(svg, is_whole(&chart->picture->judgement) ? "</text>\n" : ", file refused</text>\n");
}

static const char *part_meaning(const struct run *run, const struct series *part) {
    if (part == &run->order) {
        return "base order";
    }
    if (part == &run->letters) {
        return "called letters";
    }
    return part == &run->places ? "places of the letters" : "quality values, the bars";
}

static void draw_part(struct chart *chart, const struct series *part, struct box box) {
    struct svg *svg = &chart->picture->svg;
    const struct run *run = chart->run;
    if (part->refusal != 0) {
        draw_refused(chart->picture, (struct refused){part->tag, part->tag, 0, part->refusal, NULL}, box);
        return;
    }
    svg_format(svg, "<text x=\"%" PRId64 "\" y=\"%" PRId64 "\"><tspan font-weight=\"bold\">%s</tspan> %s",
               box.x + PART_TEXT_LEFT, box.y + 16, part->tag, part_meaning(run, part));
    if (part == &run->order && run->bases[0] != 0) {
        svg_format(svg, " %.4s", run->bases);
    } else {
        svg_markup(svg, ", ");
        svg_grouped(svg, (int64_t)part->count);
    }
    svg_markup(svg, "</text>\n");
}

/* A line of the list of parts: the channels, and then the other parts. */
static void draw_parts_line(void *subject, uint64_t index, int64_t y) {
    struct abif_picture *abif = subject;
    struct box box = {PICTURE_MARGIN, y, PICTURE_WIDTH - 2 * PICTURE_MARGIN, PART_HEIGHT - 4};
    uint64_t channels = (uint64_t)abif->chart->run->channel_count;
    if (index < channels) {
        draw_channel_part(abif->chart, (int)index, box);
    } else {
        draw_part(abif->chart, abif->parts[index - channels], box);
    }
}

static void draw_note(void *subject, uint64_t index, int64_t y) {
    struct abif_picture *abif = subject;
    svg_format(&abif->chart->picture->svg, "<text class=\"note\" x=\"%d\" y=\"%" PRId64 "\">%s</text>\n",
               PICTURE_MARGIN, y + NOTE_HEIGHT - 4, abif->notes[index]);
}

/* Begins a frame of words in the place of rows. */
static void begin_fold(struct picture *picture, int64_t y) {
    svg_format(&picture->svg,
               "<rect class=\"frame\" stroke-dasharray=\"4 3\" x=\"%d\" y=\"%" PRId64 "\" width=\"%d\" height=\"%d\"/>",
               PLOT_LEFT, y, PLOT_WIDTH, FOLD_HEIGHT - 18);
}

/* What stands in the place of the flat rows in front. */
static void draw_front(void *subject, uint64_t index, int64_t y) {
    struct abif_picture *abif = subject;
    struct chart *chart = abif->chart;
    struct svg *svg = &chart->picture->svg;
    uint64_t last = first_point(chart, chart->folded) - 1;
    (void)index;
    begin_fold(chart->picture, y);
    svg_format(svg, "<text class=\"front\" data-first=\"0\" data-last=\"%" PRIu64 "\" data-lowest=\"%" PRId64 "\" ",
               last, chart->front.lowest);
    svg_format(svg,
               "data-highest=\"%" PRId64 "\" x=\"%d\" y=\"%" PRId64 "\">Points 0 to %s: no peak yet, the signal stays "
               "between ",
               chart->front.highest, PLOT_LEFT + 12, y + 20, with_commas(last).text);
    svg_grouped(svg, chart->front.lowest);
    svg_markup(svg, " and ");
    svg_grouped(svg, chart->front.highest);
    svg_format(svg, ".</text><text x=\"%d\" y=\"%" PRId64 "\">Not drawn: %" PRIu64 " flat %s.</text>\n", PLOT_LEFT + 12,
               y + 38, chart->folded, chart->folded == 1 ? "row" : "rows");
}

/* What stands in the place of the rows that a picture has no room for. */
static void draw_left_out(void *subject, uint64_t index, int64_t y) {
    struct abif_picture *abif = subject;
    struct chart *chart = abif->chart;
    struct svg *svg = &chart->picture->svg;
    uint64_t from = first_point(chart, MOST_ROWS) + 1;
    (void)index;
    begin_fold(chart->picture, y);
    svg_format(svg,
               "<text class=\"left-out\" data-from=\"%" PRIu64 "\" data-to=\"%" PRIu64 "\" x=\"%d\" y=\"%" PRId64 "\">",
               from, chart->length - 1, PLOT_LEFT + 12, y + 20);
    svg_format(svg, "Left out: rows %d to %s, points %s to %s.</text>", MOST_ROWS + 1,
               with_commas(chart->total_rows).text, with_commas(from).text, with_commas(chart->length - 1).text);
    svg_format(svg,
               "<text x=\"%d\" y=\"%" PRId64
               "\">A picture has at most %d rows. With --points N a row has N points.</text>\n",
               PLOT_LEFT + 12, y + 38, MOST_ROWS);
}

static void draw_abif_row(void *subject, uint64_t index, int64_t y) {
    struct abif_picture *abif = subject;
    draw_row(abif->chart, index, y);
}

static void add_part(struct abif_picture *abif, const struct series *part) {
    abif->parts[abif->part_count++] = part;
}

/* The parts beside the channels. A file of fragments needs none; the number of dyes is told only where it is refused.
 */
static void collect_parts(struct abif_picture *abif) {
    const struct run *run = abif->chart->run;
    if (!run->fragment) {
        add_part(abif, &run->order);
    }
    if (!run->fragment && !run->raw) {
        add_part(abif, &run->letters);
        add_part(abif, &run->places);
        add_part(abif, &run->qualities);
    }
    if (run->dyes.refusal != 0 && run->dyes.refusal != NOT_THERE) {
        add_part(abif, &run->dyes);
    }
}

static char *next_note(struct abif_picture *abif) {
    return abif->notes[abif->note_count++];
}

static void note(struct abif_picture *abif, const char *text) {
    snprintf(next_note(abif), NOTE_LENGTH, "%s", text);
}

static void note_counts(struct abif_picture *abif, const struct series *left, const struct series *right) {
    snprintf(next_note(abif), NOTE_LENGTH,
             "%s and %s have different counts: what belongs to which letter is not known, and is not shown.", left->tag,
             right->tag);
}

static void note_channels(struct abif_picture *abif) {
    const struct run *run = abif->chart->run;
    if (run->stated_dyes > MOST_CHANNELS) {
        snprintf(next_note(abif), NOTE_LENGTH, "Dye# 1 says that there are %s dyes. The first %d are shown.",
                 with_commas((uint64_t)run->stated_dyes).text, MOST_CHANNELS);
    }
    if (run->fragment) {
        note(abif, "The file has no base order and no called letters: its channels are told apart by their dyes.");
        note(abif, "Each row has a scale of its own: look at the numbers at its left.");
        return;
    }
    if (run->raw) {
        note(abif, "Raw channels. The called letters belong to the analysed ones, and are not shown.");
    }
    if (run->bases[0] == 0) {
        note(abif, run->order.refusal != 0 ? "Without the base order no channel has a base, and no letters are shown."
                                           : "FWO_ 1 is no order of A, C, G and T: no channel has a base.");
    }
    if (abif->chart->off_scale) {
        note(abif, "\xE2\x96\xB2 \xE2\x96\xBC: the highest and the lowest value of a row whose lines leave the scale.");
    }
}

static void note_letters(struct abif_picture *abif) {
    const struct chart *chart = abif->chart;
    const struct run *run = chart->run;
    if (run->raw || run->fragment) {
        return;
    }
    if (run->letters.count > 0 && run->places.count > 0 && !run->placed) {
        note_counts(abif, &run->letters, &run->places);
    }
    if (run->letters.count > 0 && run->qualities.count > 0 && !run->qualified) {
        note_counts(abif, &run->letters, &run->qualities);
    }
    if (chart->qualified) {
        note(abif, "A quality of 0 is marked 0, and one below 0 is marked \xE2\x88\x92.");
    }
    if (chart->hidden > 0) {
        snprintf(next_note(abif), NOTE_LENGTH,
                 "Letters not shown, because their trace cannot be read at their place: %s.",
                 with_commas(chart->hidden).text);
    }
}

/* The gap before the rows has what cuts their traces off at the plots' edges. */
static void draw_clip_path(void *subject, uint64_t index, int64_t y) {
    struct abif_picture *abif = subject;
    (void)index;
    (void)y;
    svg_format(&abif->chart->picture->svg,
               "<clipPath id=\"plot\"><rect y=\"-1\" width=\"%d\" height=\"%d\"/></clipPath>\n", PLOT_WIDTH,
               PLOT_HEIGHT + 2);
}

static void lay_out_parts(struct abif_picture *abif, struct sheet *sheet) {
    for (int i = 0; i < abif->chart->run->channel_count + abif->part_count; i++) {
        sheet_add(sheet, PART_HEIGHT, draw_parts_line, (uint64_t)i);
    }
}

static void lay_out_notes(struct abif_picture *abif, struct sheet *sheet) {
    for (int i = 0; i < abif->note_count; i++) {
        sheet_add(sheet, NOTE_HEIGHT, draw_note, (uint64_t)i);
    }
}

static void lay_out_rows(struct abif_picture *abif, struct sheet *sheet) {
    enum { GAP = 16 };
    const struct chart *chart = abif->chart;
    sheet_add(sheet, GAP, draw_clip_path, 0);
    if (chart->folded > 0) {
        sheet_add(sheet, FOLD_HEIGHT, draw_front, 0);
    }
    for (uint64_t row = chart->folded; row < chart->row_count; row++) {
        sheet_add(sheet, row_height(chart, row), draw_abif_row, row);
    }
    if (chart->total_rows > chart->row_count) {
        sheet_add(sheet, FOLD_HEIGHT, draw_left_out, 0);
    }
}

bool draw_abif(struct picture *picture, const struct draw_options *options) {
    struct run run;
    run_read(&run, picture->file, options->raw);
    struct abif_picture abif = {.chart = take(1, sizeof *abif.chart)};
    struct sheet *sheet = take(1, sizeof *sheet);
    abif.chart->picture = picture;
    abif.chart->run = &run;
    chart_prepare(abif.chart, options->points);
    collect_parts(&abif);
    note_channels(&abif);
    note_letters(&abif);
    lay_out_parts(&abif, sheet);
    lay_out_notes(&abif, sheet);
    lay_out_rows(&abif, sheet);
    sheet_draw(sheet, picture, &abif);
    chart_free(abif.chart);
    free(sheet);
    return refused_channels(&run) == 0;
}
