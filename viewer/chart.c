#include "chart.h"

#include "memory.h"
#include "progress.h"

#include <inttypes.h>
#include <stdlib.h>
#include <string.h>

enum { LOWEST_TOP = 100, LEAST_BELOW = 10 };

static void spell(struct spelled *spelled, uint64_t tenths, char behind) {
    char digits[sizeof spelled->text];
    size_t count = 0;
    for (uint64_t rest = tenths / 10; rest > 0 || count == 0; rest /= 10) {
        digits[count++] = (char)('0' + rest % 10);
    }
    while (count > 0) {
        spelled->text[spelled->length++] = digits[--count];
    }
    if (tenths % 10 != 0) {
        spelled->text[spelled->length++] = '.';
        spelled->text[spelled->length++] = (char)('0' + tenths % 10);
    }
    spelled->text[spelled->length++] = behind;
}

uint64_t column_tenths(const struct chart *chart, uint64_t column) {
    return 10 * PLOT_WIDTH * column / chart->points;
}

static void spell_coordinates(struct chart *chart) {
    bool wide = chart->points > PLOT_WIDTH;
    for (uint64_t i = 0; i <= (wide ? PLOT_WIDTH : chart->points); i++) {
        spell(&chart->x[i], wide ? 10 * i : column_tenths(chart, i), ',');
    }
    for (uint64_t i = 0; i <= 10 * PLOT_HEIGHT; i++) {
        spell(&chart->y[i], i, ' ');
    }
}

uint64_t first_point(const struct chart *chart, uint64_t row) {
    return chart->points * row;
}

uint64_t last_point(const struct chart *chart, uint64_t row) {
    uint64_t last = first_point(chart, row) + chart->points;
    return last < chart->length ? last : chart->length - 1;
}

bool has_ended(const struct chart *chart, int channel, uint64_t row) {
    const struct series *series = &chart->run->channels[channel];
    return series->refusal == 0 && series->count < chart->length && series->count <= last_point(chart, row);
}

static void add_to_bounds(void *context, uint64_t first, const int64_t *values, uint64_t count) {
    struct bounds *bounds = context;
    (void)first;
    *bounds = bounds_with(*bounds, values, count);
}

/* The bounds of each channel in a row, and of all rows. */
static void bound_row(struct chart *chart, uint64_t row) {
    const struct run *run = chart->run;
    uint64_t first = first_point(chart, row);
    for (int i = 0; i < run->channel_count; i++) {
        struct bounds *bounds = &chart->rows[row].bounds[i];
        *bounds = bounds_of_none();
        series_visit(run->file, &run->channels[i], first, first + chart->points + 1, add_to_bounds, bounds);
        chart->range = bounds_of_both(chart->range, *bounds);
    }
}

static bool is_flat(const struct chart *chart, uint64_t row) {
    enum { OUT_OF = 50 };
    int64_t most = (chart->range.highest - chart->range.lowest) / OUT_OF;
    for (int i = 0; i < chart->run->channel_count; i++) {
        struct bounds bounds = chart->rows[row].bounds[i];
        if (bounds.lowest <= bounds.highest && bounds.highest - bounds.lowest > most) {
            return false;
        }
    }
    return true;
}

/* The flat rows before the first that is not; none where all are flat. */
static void fold_front(struct chart *chart) {
    const struct run *run = chart->run;
    uint64_t flat = 0;
    while (flat < chart->row_count && is_flat(chart, flat)) {
        flat++;
    }
    chart->folded = flat < chart->row_count ? flat : 0;
    chart->front = bounds_of_none();
    for (int i = 0; i < run->channel_count; i++) {
        series_visit(run->file, &run->channels[i], 0, first_point(chart, chart->folded), add_to_bounds, &chart->front);
    }
}

/* The scale is round, and where something lies below 0 there is room for it to be seen. */
static void set_scale(struct chart_row *row, struct bounds bounds) {
    int64_t below = bounds.lowest < 0 ? round_above(-bounds.lowest) : 0;
    row->top = round_above(bounds.highest > LOWEST_TOP ? bounds.highest : LOWEST_TOP);
    row->bottom = below == 0 || below > row->top / LEAST_BELOW ? -below : -row->top / LEAST_BELOW;
    row->tenths = 10.0 * PLOT_HEIGHT / (double)(row->top - row->bottom);
}

/* A row of a fragment run has all of its values on a scale of its own, on which small peaks are seen and noise stays
   small. */
static void choose_row_scale(struct chart *chart, struct chart_row *row) {
    struct bounds bounds = {0, (chart->range.highest + LEAST_BELOW - 1) / LEAST_BELOW};
    for (int i = 0; i < chart->run->channel_count; i++) {
        bounds = bounds_of_both(bounds, row->bounds[i]);
    }
    set_scale(row, bounds);
}

/* The levels of a channel, as they are being read. */
struct channel_levels {
    const struct chart *chart;
    uint64_t channel;
    struct levels levels;
};

static void add_to_levels(void *context, uint64_t first, const int64_t *values, uint64_t count) {
    struct channel_levels *read = context;
    uint64_t rows = read->chart->row_count;
    uint64_t channels = (uint64_t)read->chart->run->channel_count;
    levels_add(&read->levels, values, count);
    progress_show(rows * channels + rows * read->channel + first / read->chart->points, 3 * rows * channels);
}

/* Each channel by itself has nearly all of its values on the scale, so that none can lie outside as a whole. */
static struct bounds usual_bounds(const struct chart *chart) {
    const struct run *run = chart->run;
    struct channel_levels *read = take(1, sizeof *read);
    struct bounds usual = {0, 0};
    read->chart = chart;
    for (int i = 0; i < run->channel_count; i++) {
        read->channel = (uint64_t)i;
        levels_begin(&read->levels, chart->range);
        series_visit(run->file, &run->channels[i], 0, first_point(chart, chart->row_count) + 1, add_to_levels, read);
        struct bounds levels = {-usual_level(&read->levels.below, read->levels.count),
                                usual_level(&read->levels.above, read->levels.count)};
        usual = bounds_of_both(usual, levels);
    }
    free(read);
    return usual;
}

static void choose_common_scale(struct chart *chart) {
    struct bounds usual = usual_bounds(chart);
    for (uint64_t row = 0; row < chart->row_count; row++) {
        set_scale(&chart->rows[row], usual);
    }
    chart->off_scale = chart->range.highest > chart->rows[0].top || chart->range.lowest < chart->rows[0].bottom;
}

static void choose_own_scales(struct chart *chart) {
    fold_front(chart);
    for (uint64_t row = 0; row < chart->row_count; row++) {
        choose_row_scale(chart, &chart->rows[row]);
    }
}

static void choose_scales(struct chart *chart) {
    for (uint64_t row = 0; row < chart->row_count; row++) {
        bound_row(chart, row);
        progress_show(row, 3 * chart->row_count);
    }
    if (chart->run->fragment) {
        choose_own_scales(chart);
    } else {
        choose_common_scale(chart);
    }
}

void chart_prepare(struct chart *chart, uint64_t points) {
    const struct run *run = chart->run;
    chart->points = points;
    chart->length = run_length(run);
    chart->total_rows = chart->length <= 1 ? 1 : (chart->length - 2) / points + 1;
    chart->row_count = chart->total_rows < MOST_ROWS ? chart->total_rows : MOST_ROWS;
    chart->lettered = !run->raw && run->placed && run->bases[0] != 0;
    chart->qualified = chart->lettered && run->qualified;
    chart->rows = take(chart->row_count, sizeof *chart->rows);
    spell_coordinates(chart);
    choose_scales(chart);
    if (chart->lettered) {
        chart_sort_letters(chart);
    }
}

void chart_free(struct chart *chart) {
    free(chart->rows);
    free(chart);
}

int row_height_above(const struct chart *chart) {
    enum { WITHOUT_LETTERS = 20, HALF_A_NUMBER = 8 };
    if (chart->length == 0) {
        return 0;
    }
    if (!chart->lettered) {
        return WITHOUT_LETTERS;
    }
    return chart->qualified ? QUALITY_HEIGHT + LETTERS_HEIGHT + HALF_A_NUMBER : LETTERS_HEIGHT;
}

int lane_height(const struct chart *chart) {
    return chart->length > 0 ? 24 : 36;
}

static int lanes_of(const struct chart *chart, uint64_t row) {
    int lanes = refused_channels(chart->run);
    for (int i = 0; i < chart->run->channel_count && chart->length > 0; i++) {
        lanes += has_ended(chart, i, row);
    }
    return lanes;
}

int row_height(const struct chart *chart, uint64_t row) {
    enum { GAP = 18 };
    int plot = chart->length > 0 ? PLOT_HEIGHT + AXIS_HEIGHT : 0;
    return row_height_above(chart) + plot + lanes_of(chart, row) * lane_height(chart) + GAP;
}

const char *channel_colour(const struct run *run, int channel) {
    static const char *const colours[] = {"#0c00a0", "#0c846c", "#000", "#90300c", "#b3006b", "#5b6b00", "#5c4a8f"};
    enum { COLOURS = sizeof colours / sizeof colours[0] };
    return run->bases[channel] != 0 ? letter_colour(run->bases[channel]) : colours[channel % COLOURS];
}

const char *channel_dashes(const struct run *run, int channel) {
    static const char *const dashes[] = {"none", "6 2", "2 2", "8 2 2 2", "12 3", "3 3", "4 1 1 1"};
    static const char bases[] = "AGTC";
    enum { DASHES = sizeof dashes / sizeof dashes[0] };
    char base = run->bases[channel];
    return dashes[base != 0 ? strchr(bases, base) - bases : (channel + channel / DASHES) % DASHES];
}

struct channel_label channel_label(const struct run *run, int channel) {
    struct channel_label label;
    const char *tag = run->channels[channel].tag;
    char base = run->bases[channel];
    snprintf(label.text, sizeof label.text, base != 0 ? "%s, base %c" : "%s", tag, base);
    return label;
}

void draw_refused_channel(struct chart *chart, int channel, struct box box) {
    const struct series *series = &chart->run->channels[channel];
    struct channel_label label = channel_label(chart->run, channel);
    draw_refused(chart->picture, (struct refused){series->tag, label.text, 0, series->refusal, NULL}, box);
}
