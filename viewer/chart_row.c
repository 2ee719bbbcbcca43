#include "chart.h"

#include "progress.h"
#include "text.h"

#include <inttypes.h>
#include <string.h>

/* The highest and the lowest value of a row, where they lie outside of the scale. */
struct outside {
    int64_t highest;
    int64_t lowest;
};

/* Whether a level's number stands upon none of those before it. */
static bool has_room(const struct chart_row *row, const int64_t values[], int level) {
    enum { LINE_HEIGHT = 110 };
    for (int other = 0; other < level; other++) {
        int64_t apart = row_tenths(row, values[level]) - row_tenths(row, values[other]);
        if (apart < LINE_HEIGHT && apart > -LINE_HEIGHT) {
            return false;
        }
    }
    return true;
}

/* The levels, the most needed first: one that has no room for its number has none. */
static void draw_levels(struct chart *chart, const struct chart_row *row) {
    int64_t values[] = {row->top, 0, row->bottom, row->top / 2};
    for (int i = 0; i < (int)(sizeof values / sizeof values[0]); i++) {
        int64_t tenths = row_tenths(row, values[i]);
        draw_level(chart->picture, tenths);
        if (has_room(row, values, i)) {
            draw_level_number(chart->picture, tenths, values[i]);
        }
    }
}

static void draw_scale(struct chart *chart, const struct chart_row *row) {
    struct svg *svg = &chart->picture->svg;
    draw_levels(chart, row);
    svg_markup(svg, "<text class=\"small end\" x=\"-10\" y=\"-9\">signal</text>");
    svg_format(svg, "<rect class=\"frame\" width=\"%d\" height=\"%d\"/>\n", PLOT_WIDTH, PLOT_HEIGHT);
}

static void draw_tick(struct chart *chart, uint64_t first, uint64_t point) {
    struct svg *svg = &chart->picture->svg;
    uint64_t x = column_tenths(chart, point - first) / 10;
    bool last = x > PLOT_WIDTH - 60;
    svg_format(svg, "<path class=\"frame\" d=\"M%" PRIu64 " %dv4\"/>", x, PLOT_HEIGHT);
    svg_format(svg, "<text class=\"small %s\" x=\"%" PRIu64 "\" y=\"%d\">", last ? "end" : "middle", last ? x + 6 : x,
               PLOT_HEIGHT + 15);
    svg_grouped(svg, (int64_t)point);
    svg_markup(svg, "</text>");
}

static void draw_places(struct chart *chart, uint64_t row) {
    enum { TICKS = 5 };
    uint64_t first = first_point(chart, row);
    for (uint64_t i = 0; i <= TICKS; i++) {
        uint64_t point = first + chart->points * i / TICKS;
        if (point < chart->length) {
            draw_tick(chart, first, point);
        }
    }
    svg_format(&chart->picture->svg, "<text class=\"small end\" x=\"-48\" y=\"%d\">point</text>\n", PLOT_HEIGHT + 15);
}

/* A value on the scale. Texts of a fixed length are copied sooner; what is too much of one, the next is written over.
 */
static char *put_point(const struct chart *chart, const struct chart_row *row, char *out, uint64_t column,
                       int64_t value) {
    const struct spelled *x = &chart->x[column];
    const struct spelled *y = &chart->y[row_tenths(row, value)];
    memcpy(out, x, sizeof *x);
    out += x->length;
    memcpy(out, y, sizeof *y);
    return out + y->length;
}

static void draw_point_outside(struct chart *chart, const struct chart_row *row, uint64_t column, int64_t value,
                               struct outside *outside) {
    struct svg *svg = &chart->picture->svg;
    outside->highest = value > outside->highest ? value : outside->highest;
    outside->lowest = value < outside->lowest ? value : outside->lowest;
    const struct spelled *x = &chart->x[column];
    memcpy(svg_room(svg, sizeof *x), x->text, sizeof x->text);
    svg_used(svg, x->length);
    svg_tenths(svg, row_tenths(row, value));
    svg_markup(svg, " ");
}

static void draw_point(struct chart *chart, const struct chart_row *row, uint64_t column, int64_t value,
                       struct outside *outside) {
    struct svg *svg = &chart->picture->svg;
    if (value > row->top || value < row->bottom) {
        draw_point_outside(chart, row, column, value, outside);
        return;
    }
    char *start = svg_room(svg, 2 * sizeof(struct spelled));
    svg_used(svg, (size_t)(put_point(chart, row, start, column, value) - start));
}

/* A channel's line in a row, as it is being drawn. */
struct line {
    struct chart *chart;
    const struct chart_row *row;
    uint64_t first; /* point of the row */
    struct outside *outside;
    struct bounds columns[PLOT_WIDTH + 1]; /* the lowest and the highest of each pixel */
};

static void draw_values(void *context, uint64_t first, const int64_t *values, uint64_t count) {
    struct line *line = context;
    for (uint64_t i = 0; i < count; i++) {
        draw_point(line->chart, line->row, first - line->first + i, values[i], line->outside);
    }
}

/* The values of one pixel after the other. */
static void add_to_columns(void *context, uint64_t first, const int64_t *values, uint64_t count) {
    struct line *line = context;
    uint64_t points = line->chart->points;
    uint64_t from = first - line->first;
    uint64_t behind = from + count;
    while (from < behind) {
        uint64_t column = PLOT_WIDTH * from / points;
        uint64_t next = ((column + 1) * points + PLOT_WIDTH - 1) / PLOT_WIDTH;
        uint64_t end = next < behind ? next : behind;
        line->columns[column] = bounds_with(line->columns[column], values, end - from);
        values += end - from;
        from = end;
    }
}

static void draw_columns(struct line *line) {
    for (uint64_t i = 0; i <= PLOT_WIDTH; i++) {
        struct bounds column = line->columns[i];
        if (column.lowest <= column.highest) {
            draw_point(line->chart, line->row, i, column.lowest, line->outside);
        }
        if (column.lowest < column.highest) {
            draw_point(line->chart, line->row, i, column.highest, line->outside);
        }
    }
}

/* Each point, or the lowest and the highest of each pixel where there are more points than pixels. */
static void draw_line(struct line *line, const struct series *series) {
    struct chart *chart = line->chart;
    const struct file *file = chart->run->file;
    uint64_t behind = line->first + chart->points + 1;
    if (chart->points <= PLOT_WIDTH) {
        series_visit(file, series, line->first, behind, draw_values, line);
        return;
    }
    for (uint64_t i = 0; i <= PLOT_WIDTH; i++) {
        line->columns[i] = bounds_of_none();
    }
    series_visit(file, series, line->first, behind, add_to_columns, line);
    draw_columns(line);
}

/* The channel's line in a row; none where the channel ends before it. A point by itself stands twice. */
static void draw_trace(struct line *line, int channel) {
    struct chart *chart = line->chart;
    struct svg *svg = &chart->picture->svg;
    const struct series *series = &chart->run->channels[channel];
    bool only_point = series->count == 1 && line->first == 0;
    if (series->count <= line->first + 1 && !only_point) {
        return;
    }
    svg_format(svg, "<polyline class=\"trace\" data-part=\"%s\" stroke=\"%s\" stroke-dasharray=\"%s\" points=\"",
               series->tag, channel_colour(chart->run, channel), channel_dashes(chart->run, channel));
    draw_line(line, series);
    if (only_point) {
        draw_line(line, series);
    }
    svg_markup(svg, "\"/>\n");
}

static void draw_outside(struct chart *chart, const char *sign, int64_t value, int x) {
    struct svg *svg = &chart->picture->svg;
    svg_format(svg, "<text class=\"off-scale small middle\" x=\"%d\" y=\"%d\">%s ", x, PLOT_HEIGHT + 15, sign);
    svg_grouped(svg, value);
    svg_markup(svg, "</text>\n");
}

/* What leaves the scale is told between the numbers of the points. */
static void draw_traces(struct chart *chart, uint64_t row) {
    enum { HIGHEST_AT = PLOT_WIDTH * 9 / 10, LOWEST_AT = PLOT_WIDTH * 7 / 10 };
    const struct chart_row *drawn = &chart->rows[row];
    struct outside outside = {drawn->top, drawn->bottom};
    struct line line = {.chart = chart, .row = drawn, .first = first_point(chart, row), .outside = &outside};
    svg_markup(&chart->picture->svg, "<g clip-path=\"url(#plot)\">\n");
    for (int channel = 0; channel < chart->run->channel_count; channel++) {
        draw_trace(&line, channel);
    }
    svg_markup(&chart->picture->svg, "</g>\n");
    if (outside.highest > drawn->top) {
        draw_outside(chart, "\xE2\x96\xB2", outside.highest, HIGHEST_AT);
    }
    if (outside.lowest < drawn->bottom) {
        draw_outside(chart, "\xE2\x96\xBC", outside.lowest, LOWEST_AT);
    }
}

static void draw_plot(struct chart *chart, uint64_t row) {
    draw_scale(chart, &chart->rows[row]);
    draw_places(chart, row);
    draw_traces(chart, row);
    draw_file_refused(chart->picture, PLOT_WIDTH - 8, 16);
    if (chart->lettered) {
        draw_letters(chart, row);
    }
}

/* The words go where there is room: before the box, behind it, or in it. */
static void draw_ended_words(struct chart *chart, int channel, struct box box) {
    enum { GAP = 10, ROOM = 340 };
    char words[96];
    snprintf(words, sizeof words, "%s: ends after point %s", channel_label(chart->run, channel).text,
             with_commas(chart->run->channels[channel].count - 1).text);
    int64_t width = box_words_width(words);
    int64_t x = box.x + GAP;
    if (box.x >= width + GAP) {
        x = box.x - width - GAP;
    } else if (box.x + box.width + GAP + width <= PLOT_WIDTH) {
        x = box.x + box.width + GAP;
    }
    draw_words(chart->picture, "ended-words", words, x, box.y + box.height / 2 + 5, ROOM);
}

/* From the channel's last point to the row's; never so narrow that it could not be seen. */
static void draw_ended(struct chart *chart, int channel, uint64_t row, int64_t y) {
    enum { NARROWEST = 20 };
    struct svg *svg = &chart->picture->svg;
    const struct series *series = &chart->run->channels[channel];
    uint64_t first = first_point(chart, row);
    uint64_t from = series->count > first ? column_tenths(chart, series->count - 1 - first) : 0;
    uint64_t to = column_tenths(chart, last_point(chart, row) - first);
    uint64_t width = to - from > NARROWEST ? to - from : NARROWEST;
    from = to > width ? to - width : 0;
    svg_format(svg, "<rect class=\"ended\" data-part=\"%s\" data-count=\"%" PRIu64 "\" x=\"", series->tag,
               series->count);
    svg_tenths(svg, (int64_t)from);
    svg_format(svg, "\" y=\"%" PRId64 "\" width=\"", y);
    svg_tenths(svg, (int64_t)width);
    svg_format(svg, "\" height=\"%d\" fill=\"url(#hatch)\" stroke=\"#111\"/>", lane_height(chart) - 4);
    struct box box = {(int64_t)from / 10, y, (int64_t)width / 10, lane_height(chart) - 4};
    draw_ended_words(chart, channel, box);
}

void draw_lanes(struct chart *chart, uint64_t row) {
    int64_t y = chart->length > 0 ? PLOT_HEIGHT + AXIS_HEIGHT : 0;
    for (int i = 0; i < chart->run->channel_count; i++) {
        if (chart->run->channels[i].refusal != 0) {
            draw_refused_channel(chart, i, (struct box){0, y, PLOT_WIDTH, lane_height(chart) - 4});
            y += lane_height(chart);
        } else if (has_ended(chart, i, row)) {
            draw_ended(chart, i, row, y);
            y += lane_height(chart);
        }
    }
}

void draw_row(struct chart *chart, uint64_t row, int64_t y) {
    struct svg *svg = &chart->picture->svg;
    const struct chart_row *drawn = &chart->rows[row];
    svg_format(svg, "<g class=\"row\" data-first=\"%" PRIu64 "\" data-points=\"%" PRIu64 "\" data-top=\"%" PRId64 "\" ",
               first_point(chart, row), chart->points, drawn->top);
    svg_format(svg, "data-bottom=\"%" PRId64 "\" data-height=\"%d\" transform=\"translate(%d,%" PRId64 ")\">\n",
               drawn->bottom, PLOT_HEIGHT, PLOT_LEFT, y + row_height_above(chart));
    if (chart->length > 0) {
        draw_plot(chart, row);
    }
    draw_lanes(chart, row);
    svg_markup(svg, "</g>\n");
    progress_show(2 * chart->row_count + row, 3 * chart->row_count);
}
