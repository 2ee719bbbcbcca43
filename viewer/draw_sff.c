#include "draw.h"

#include "memory.h"
#include "numbers.h"
#include "progress.h"
#include "sheet.h"
#include "text.h"

#include <inttypes.h>
#include <stdlib.h>

enum {
    FLOWS = 100, /* in a row */
    FLOW_WIDTH = PLOT_WIDTH / FLOWS,
    PLOT_HEIGHT = 150,
    FLOW_LETTER_HEIGHT = 34,
    LETTER_HEIGHT = 16,
    MOST_LETTERS = 20, /* under one flow */
    MORE_HEIGHT = 96,  /* for the number of those that are not drawn, which stands upright */
    ROW_GAP = 26,
    HUNDREDTHS = 100,
    LOWEST_TOP = 200,
    LEGEND_HEIGHT = 60
};

/* A read's picture. Flows and bases count from one. */
struct flowgram {
    struct picture *picture;
    struct jt_sff_header header;
    struct jt_sff_read read;
    char part[32];
    char label[48]; /* what the read is called in the picture */
    int64_t top;
    uint64_t rows;
    uint64_t kept_from; /* the flows of the first and the last base that are kept */
    uint64_t kept_to;
    uint64_t most_letters; /* of one flow */
    uint64_t next_base;    /* the first that stands in no row yet, and its flow */
    uint64_t next_flow;
};

static uint16_t flow_value(const struct flowgram *flowgram, uint64_t flow) {
    return big_endian_16(flowgram->picture->file, flowgram->read.flows_start + 2 * (flow - 1));
}

static uint8_t flow_letter(const struct flowgram *flowgram, uint64_t flow) {
    return byte_at(flowgram->picture->file, flowgram->header.flow_letters_start + flow - 1);
}

/* 0 behind the last base. */
static uint8_t step_of(const struct flowgram *flowgram, uint64_t base) {
    bool there = base <= flowgram->read.bases;
    return there ? byte_at(flowgram->picture->file, flowgram->read.steps_start + base - 1) : 0;
}

static uint8_t letter_of(const struct flowgram *flowgram, uint64_t base) {
    return byte_at(flowgram->picture->file, flowgram->read.letters_start + base - 1);
}

static bool is_kept(const struct flowgram *flowgram, uint64_t base) {
    return base >= flowgram->read.first && base <= flowgram->read.last;
}

/* The scale: hundredths of a base. */
static void choose_scale(struct flowgram *flowgram) {
    int64_t highest = LOWEST_TOP;
    for (uint64_t flow = 1; flow <= flowgram->header.flows; flow++) {
        int64_t value = flow_value(flowgram, flow);
        highest = value > highest ? value : highest;
    }
    flowgram->top = (highest + HUNDREDTHS - 1) / HUNDREDTHS * HUNDREDTHS;
}

/* Which flows are kept: all of them where nothing is clipped, none where no base is kept. */
static void find_clips(struct flowgram *flowgram) {
    const struct jt_sff_read *read = &flowgram->read;
    uint64_t flow = 0;
    uint64_t in_flow = 0;
    bool empty = read->first > read->last && read->bases > 0;
    flowgram->kept_from = empty ? flowgram->header.flows + 1 : 1;
    flowgram->kept_to = flowgram->header.flows;
    for (uint64_t base = 1; base <= read->bases; base++) {
        uint8_t step = step_of(flowgram, base);
        flow += step;
        in_flow = step == 0 ? in_flow + 1 : 1;
        flowgram->most_letters = in_flow > flowgram->most_letters ? in_flow : flowgram->most_letters;
        if (base == read->first && base > 1 && !empty) {
            flowgram->kept_from = flow;
        }
        if (base == read->last && base < read->bases && !empty) {
            flowgram->kept_to = flow;
        }
    }
}

static int64_t letters_height(const struct flowgram *flowgram) {
    bool all = flowgram->most_letters <= MOST_LETTERS;
    return all ? LETTER_HEIGHT * (int64_t)flowgram->most_letters : LETTER_HEIGHT * MOST_LETTERS + MORE_HEIGHT;
}

static int64_t row_height(const struct flowgram *flowgram) {
    return PLOT_HEIGHT + FLOW_LETTER_HEIGHT + letters_height(flowgram) + ROW_GAP;
}

/* Shades the flows from `from` to `to` as far as they stand in the row. */
static void draw_shade(struct flowgram *flowgram, uint64_t row, uint64_t from, uint64_t to) {
    uint64_t first = row * FLOWS + 1;
    uint64_t last = first + FLOWS - 1;
    from = from > first ? from : first;
    to = to < last ? to : last;
    if (from <= to) {
        svg_format(&flowgram->picture->svg,
                   "<rect class=\"clipped\" data-from=\"%" PRIu64 "\" data-to=\"%" PRIu64 "\" x=\"%" PRIu64
                   "\" width=\"%" PRIu64 "\" height=\"%" PRId64 "\"/>\n",
                   from, to, FLOW_WIDTH * (from - first), FLOW_WIDTH * (to - from + 1), row_height(flowgram) - ROW_GAP);
    }
}

static void draw_clips(struct flowgram *flowgram, uint64_t row) {
    draw_shade(flowgram, row, 1, flowgram->kept_from - 1);
    draw_shade(flowgram, row, flowgram->kept_to + 1, flowgram->header.flows);
}

static int64_t tenths_of(const struct flowgram *flowgram, int64_t value) {
    return 10 * PLOT_HEIGHT * value / flowgram->top;
}

/* The number of bases from one level to the next, so that their numbers have room below each other. */
static int64_t level_step(const struct flowgram *flowgram) {
    static const int64_t steps[] = {1, 2, 5, 10, 20, 50, 100};
    enum { MOST_LEVELS = 9, LAST = sizeof steps / sizeof steps[0] - 1 };
    size_t i = 0;
    while (i < LAST && flowgram->top / HUNDREDTHS / steps[i] > MOST_LEVELS) {
        i++;
    }
    return steps[i];
}

static void draw_scale(struct flowgram *flowgram) {
    struct svg *svg = &flowgram->picture->svg;
    int64_t step = level_step(flowgram);
    for (int64_t bases = 0; bases * HUNDREDTHS <= flowgram->top; bases += step) {
        int64_t tenths = 10 * PLOT_HEIGHT - tenths_of(flowgram, bases * HUNDREDTHS);
        draw_level(flowgram->picture, tenths);
        draw_level_number(flowgram->picture, tenths, bases);
    }
    svg_format(svg, "<text class=\"small end\" x=\"-34\" y=\"%d\">bases</text>", PLOT_HEIGHT / 2);
    svg_format(svg, "<text class=\"small end\" x=\"-6\" y=\"%d\">flow</text>", PLOT_HEIGHT + 16);
    svg_format(svg, "<text class=\"small end\" x=\"-6\" y=\"%d\">called</text>\n",
               PLOT_HEIGHT + FLOW_LETTER_HEIGHT + 12);
}

static void draw_flow_letter(struct flowgram *flowgram, uint64_t flow, uint64_t x) {
    struct svg *svg = &flowgram->picture->svg;
    svg_format(svg, "<text class=\"small middle\" x=\"%" PRIu64 "\" y=\"%d\">", x, PLOT_HEIGHT + 14);
    svg_letter(svg, flow_letter(flowgram, flow));
    svg_markup(svg, "</text>");
    if (flow % 10 == 0 || flow == 1) {
        svg_format(svg, "<text class=\"small middle\" x=\"%" PRIu64 "\" y=\"%d\">%s</text>", x, PLOT_HEIGHT + 28,
                   with_commas(flow).text);
    }
    svg_markup(svg, "\n");
}

static void draw_flow(struct flowgram *flowgram, uint64_t flow, uint64_t x) {
    struct svg *svg = &flowgram->picture->svg;
    uint16_t value = flow_value(flowgram, flow);
    uint8_t letter = flow_letter(flowgram, flow);
    int64_t height = tenths_of(flowgram, value);
    svg_format(svg, "<rect class=\"flow\" data-flow=\"%" PRIu64 "\" data-value=\"%u\" data-letter=\"", flow, value);
    svg_letter(svg, letter);
    svg_format(svg, "\" x=\"%" PRIu64 "\" width=\"%d\" fill=\"%s\" y=\"", x + 1, FLOW_WIDTH - 2,
               letter_colour((char)letter));
    svg_tenths(svg, 10 * PLOT_HEIGHT - height);
    svg_markup(svg, "\" height=\"");
    svg_tenths(svg, height);
    svg_markup(svg, "\"/>");
    draw_flow_letter(flowgram, flow, x + FLOW_WIDTH / 2);
}

static void draw_base(struct flowgram *flowgram, uint64_t base, uint64_t flow, uint64_t in_flow) {
    struct svg *svg = &flowgram->picture->svg;
    uint8_t letter = letter_of(flowgram, base);
    uint64_t x = FLOW_WIDTH * ((flow - 1) % FLOWS) + FLOW_WIDTH / 2;
    uint64_t y = PLOT_HEIGHT + FLOW_LETTER_HEIGHT + LETTER_HEIGHT * in_flow - 3;
    bool kept = is_kept(flowgram, base);
    svg_format(svg,
               "<text class=\"letter%s\" data-base=\"%" PRIu64 "\" data-flow=\"%" PRIu64 "\" x=\"%" PRIu64
               "\" y=\"%" PRIu64 "\" fill=\"%s\">",
               kept ? "" : " clipped", base, flow, x, y, letter_colour((char)letter));
    svg_letter(svg, letter);
    svg_markup(svg, "</text>\n");
}

/* How many of a flow's letters are not drawn, where it has too many. */
static void draw_more(struct flowgram *flowgram, uint64_t flow, uint64_t letters) {
    if (letters > MOST_LETTERS) {
        svg_format(&flowgram->picture->svg,
                   "<text class=\"more small\" data-flow=\"%" PRIu64 "\" data-count=\"%" PRIu64
                   "\" transform=\"translate(%" PRIu64 ",%d) rotate(90)\">+%s</text>\n",
                   flow, letters - MOST_LETTERS, FLOW_WIDTH * ((flow - 1) % FLOWS) + 1,
                   PLOT_HEIGHT + FLOW_LETTER_HEIGHT + LETTER_HEIGHT * MOST_LETTERS + 3,
                   with_commas(letters - MOST_LETTERS).text);
    }
}

/* The letters of the next base's flow. */
static void draw_letters_of_flow(struct flowgram *flowgram) {
    uint64_t flow = flowgram->next_flow;
    uint64_t letters = 0;
    do {
        letters++;
        if (letters <= MOST_LETTERS) {
            draw_base(flowgram, flowgram->next_base, flow, letters);
        }
        flowgram->next_base++;
    } while (flowgram->next_base <= flowgram->read.bases && step_of(flowgram, flowgram->next_base) == 0);
    draw_more(flowgram, flow, letters);
    flowgram->next_flow += step_of(flowgram, flowgram->next_base);
}

/* The rows are drawn in their order, so that each goes on with the letters where the one before it ended. */
static void draw_row(void *subject, uint64_t row, int64_t y) {
    struct flowgram *flowgram = subject;
    struct svg *svg = &flowgram->picture->svg;
    uint64_t last = (row + 1) * FLOWS;
    svg_format(svg, "<g class=\"row\" transform=\"translate(%d,%" PRId64 ")\">\n", PLOT_LEFT, y);
    draw_clips(flowgram, row);
    draw_scale(flowgram);
    for (uint64_t i = row * FLOWS + 1; i <= last && i <= flowgram->header.flows; i++) {
        draw_flow(flowgram, i, FLOW_WIDTH * (i - row * FLOWS - 1));
    }
    while (flowgram->next_base <= flowgram->read.bases && flowgram->next_flow <= last) {
        draw_letters_of_flow(flowgram);
    }
    draw_file_refused(flowgram->picture, PLOT_WIDTH - 6, 14);
    svg_markup(svg, "</g>\n");
    progress_show(row, flowgram->rows);
}

static void draw_left_out(void *subject, uint64_t index, int64_t y) {
    struct flowgram *flowgram = subject;
    uint64_t from = MOST_ROWS * FLOWS + 1;
    (void)index;
    svg_format(&flowgram->picture->svg,
               "<text class=\"left-out\" data-from=\"%" PRIu64 "\" data-to=\"%" PRIu64 "\" x=\"%d\" y=\"%" PRId64
               "\">Left out: flows %s to %s. A picture has at most %d rows.</text>\n",
               from, flowgram->header.flows, PLOT_LEFT, y + 14, with_commas(from).text,
               with_commas(flowgram->header.flows).text, MOST_ROWS);
}

static void draw_colours(struct flowgram *flowgram, int64_t y) {
    struct svg *svg = &flowgram->picture->svg;
    for (int i = 0; i < 4; i++) {
        char letter = "ACGT"[i];
        svg_format(svg, "<rect x=\"%d\" y=\"%" PRId64 "\" width=\"14\" height=\"14\" fill=\"%s\"/>", 20 + 50 * i,
                   y + 12, letter_colour(letter));
        svg_format(svg, "<text x=\"%d\" y=\"%" PRId64 "\">%c</text>", 40 + 50 * i, y + 24, letter);
    }
    svg_format(svg, "<rect class=\"shade\" x=\"240\" y=\"%" PRId64 "\" width=\"30\" height=\"14\" fill=\"#e8e8e8\"/>",
               y + 12);
    svg_format(svg, "<text x=\"278\" y=\"%" PRId64 "\">clipped</text>\n", y + 24);
}

static void draw_legend(void *subject, uint64_t index, int64_t top) {
    enum { NAME_WIDTH = 420, NAME_FONT = 13 };
    struct flowgram *flowgram = subject;
    struct svg *svg = &flowgram->picture->svg;
    const struct jt_sff_read *read = &flowgram->read;
    int64_t y = top + 14;
    (void)index;
    svg_format(svg, "<text x=\"%d\" y=\"%" PRId64 "\"><tspan font-weight=\"bold\">%s</tspan> ", PICTURE_MARGIN, y,
               flowgram->label);
    svg_fitted(svg, part_of(flowgram->picture->file, read->name_start, read->name_length), read->name_length, NAME_FONT,
               NAME_WIDTH);
    svg_format(svg, ": %s bases, ", with_commas(read->bases).text);
    if (read->first <= read->last) {
        svg_format(svg, "%s to %s kept", with_commas(read->first).text, with_commas(read->last).text);
    } else {
        svg_markup(svg, "none kept");
    }
    svg_format(svg, "; %s flows; of %s reads</text>\n", with_commas(flowgram->header.flows).text,
               with_commas(flowgram->header.reads).text);
    draw_colours(flowgram, y);
    draw_file_refused(flowgram->picture, PICTURE_WIDTH - PICTURE_MARGIN, y + 24);
}

static void draw_refused_header(void *subject, uint64_t index, int64_t y) {
    struct flowgram *flowgram = subject;
    struct box box = {PICTURE_MARGIN, y, PICTURE_WIDTH - 2 * PICTURE_MARGIN, PLOT_HEIGHT / 3};
    (void)index;
    draw_refused(flowgram->picture, (struct refused){"header", "header", 0, flowgram->header.refusal, NULL}, box);
}

static void draw_refused_read(void *subject, uint64_t index, int64_t y) {
    struct flowgram *flowgram = subject;
    struct box box = {PICTURE_MARGIN, y, PICTURE_WIDTH - 2 * PICTURE_MARGIN, PLOT_HEIGHT};
    (void)index;
    draw_refused(flowgram->picture, (struct refused){flowgram->part, flowgram->label, 0, flowgram->read.refusal, NULL},
                 box);
}

/* The header and the read, each as a hatched box where its own call refuses it. */
static void lay_out_refused(struct flowgram *flowgram, struct sheet *sheet) {
    if (flowgram->header.refusal != 0) {
        sheet_add(sheet, PLOT_HEIGHT / 2, draw_refused_header, 0);
    }
    sheet_add(sheet, PLOT_HEIGHT, draw_refused_read, 0);
}

static void lay_out(struct flowgram *flowgram, struct sheet *sheet) {
    choose_scale(flowgram);
    find_clips(flowgram);
    flowgram->next_base = 1;
    flowgram->next_flow = step_of(flowgram, 1);
    uint64_t rows = (flowgram->header.flows + FLOWS - 1) / FLOWS;
    flowgram->rows = rows < MOST_ROWS ? rows : MOST_ROWS;
    sheet_add(sheet, LEGEND_HEIGHT, draw_legend, 0);
    for (uint64_t row = 0; row < flowgram->rows; row++) {
        sheet_add(sheet, row_height(flowgram), draw_row, row);
    }
    if (rows > flowgram->rows) {
        sheet_add(sheet, ROW_GAP, draw_left_out, 0);
    }
}

bool draw_sff(struct picture *picture, const struct draw_options *options) {
    const struct file *file = picture->file;
    struct flowgram *flowgram = take(1, sizeof *flowgram);
    struct sheet *sheet = take(1, sizeof *sheet);
    flowgram->picture = picture;
    flowgram->header = jt_sff_header(file->bytes, file->length);
    flowgram->read = jt_sff_read(file->bytes, file->length, options->read);
    snprintf(flowgram->part, sizeof flowgram->part, "read %" PRIu64, options->read);
    snprintf(flowgram->label, sizeof flowgram->label, "read %s", with_commas(options->read).text);
    bool answered = flowgram->read.refusal == 0;
    if (answered) {
        lay_out(flowgram, sheet);
    } else {
        lay_out_refused(flowgram, sheet);
    }
    sheet_draw(sheet, picture, flowgram);
    free(sheet);
    free(flowgram);
    return answered;
}
