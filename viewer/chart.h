/* An ABIF run's picture: rows of traces, with the called letters and their qualities above. */
#ifndef VIEWER_CHART_H
#define VIEWER_CHART_H

#include "picture.h"
#include "run.h"
#include "scale.h"

enum {
    PLOT_HEIGHT = 130,
    QUALITY_HEIGHT = 36,
    LETTERS_HEIGHT = 32,
    AXIS_HEIGHT = 20,
    MOST_LETTERS = 250 /* in a row; more would stand upon each other */
};

/* A called letter: its base's number, from one, its place, and its quality where there are qualities. */
struct called {
    uint64_t base;
    uint64_t place;
    int64_t letter;
    int64_t quality;
};

struct chart_row {
    int64_t top, bottom; /* of its scale */
    double tenths;       /* of a pixel, for each unit of the scale */
    struct bounds bounds[MOST_CHANNELS];
    uint64_t letter_count;
    struct called letters[MOST_LETTERS];
};

/* A coordinate as text, with the sign that stands behind it. */
struct spelled {
    char text[7];
    uint8_t length;
};

struct chart {
    struct picture *picture;
    const struct run *run;
    uint64_t points;     /* in a row; the point behind them ends its lines and starts the next row's */
    uint64_t length;     /* points of the longest channel */
    uint64_t total_rows; /* of the run, */
    uint64_t row_count;  /* those of them that a picture has at most, */
    uint64_t folded;     /* and of these the flat ones in front, which are told in words */
    struct bounds range; /* of all values in the rows, and 0 */
    struct bounds front; /* of the values in front that are told in words */
    bool off_scale;      /* some value lies outside of the scale */
    bool lettered;       /* letters are shown where their traces are there */
    bool qualified;      /* with their qualities */
    int64_t top_quality; /* the highest quality, or what is usual */
    uint64_t hidden;     /* letters whose traces are not there */
    struct chart_row *rows;
    struct spelled x[PLOT_WIDTH + 1]; /* of a row's points, or of its pixels where it has more points than these */
    struct spelled y[10 * PLOT_HEIGHT + 1];
};

/* Reads what the rows hold, and chooses their scales. */
void chart_prepare(struct chart *chart, uint64_t points);
void chart_free(struct chart *chart);

/* Sorts the letters that are shown into their rows. */
void chart_sort_letters(struct chart *chart);

/* A row's first point, and the last that there is in it. */
uint64_t first_point(const struct chart *chart, uint64_t row);
uint64_t last_point(const struct chart *chart, uint64_t row);

/* How far to the right point `column` of a row stands, in tenths of a pixel. */
uint64_t column_tenths(const struct chart *chart, uint64_t column);

/* Whether the channel has ended at the row's last point. */
bool has_ended(const struct chart *chart, int channel, uint64_t row);

/* How high a row is above its plot's top, and in all. */
int row_height_above(const struct chart *chart);
int row_height(const struct chart *chart, uint64_t row);

/* How high the hatched box of a channel is below a row, with the gap below it. */
int lane_height(const struct chart *chart);

/* Draws a row with its top at `y`; and the letters above a row's plot, and the boxes below it. */
void draw_row(struct chart *chart, uint64_t row, int64_t y);
void draw_letters(struct chart *chart, uint64_t row);
void draw_lanes(struct chart *chart, uint64_t row);

/* What a channel is called, as in "DATA 12, base C". */
struct channel_label {
    char text[32];
};

struct channel_label channel_label(const struct run *run, int channel);

/* The hatched box in the place of a refused channel. */
void draw_refused_channel(struct chart *chart, int channel, struct box box);

/* A channel's colour and line style: by its base, or by its number where it has none. */
const char *channel_colour(const struct run *run, int channel);
const char *channel_dashes(const struct run *run, int channel);

/* A value's distance from the top of the row's plot, in tenths of a pixel. */
static inline int64_t row_tenths(const struct chart_row *row, int64_t value) {
    double tenths = (double)(row->top - value) * row->tenths;
    return (int64_t)(tenths < 0 ? tenths - 0.5 : tenths + 0.5);
}

#endif
