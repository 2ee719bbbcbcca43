#include "scale.h"

#include <stddef.h>

/* Whole numbers of up to 32 bits stand in the files, so that nothing here passes 64. */
int64_t round_above(int64_t value) {
    static const int64_t steps[] = {10, 12, 15, 20, 25, 30, 40, 50, 60, 80};
    for (int64_t power = 1;; power *= 10) {
        for (size_t i = 0; i < sizeof steps / sizeof steps[0]; i++) {
            if (steps[i] * power >= value) {
                return steps[i] * power;
            }
        }
    }
}

struct bounds bounds_of_none(void) {
    return (struct bounds){INT64_MAX, INT64_MIN};
}

struct bounds bounds_with(struct bounds bounds, const int64_t *values, uint64_t count) {
    for (uint64_t i = 0; i < count; i++) {
        bounds.lowest = values[i] < bounds.lowest ? values[i] : bounds.lowest;
        bounds.highest = values[i] > bounds.highest ? values[i] : bounds.highest;
    }
    return bounds;
}

struct bounds bounds_of_both(struct bounds left, struct bounds right) {
    return (struct bounds){left.lowest < right.lowest ? left.lowest : right.lowest,
                           left.highest > right.highest ? left.highest : right.highest};
}

static void distances_begin(struct distances *distances, int64_t furthest) {
    *distances = (struct distances){.furthest = furthest};
    while (furthest >> distances->shift >= BINS) {
        distances->shift++;
    }
}

void levels_begin(struct levels *levels, struct bounds bounds) {
    levels->count = 0;
    distances_begin(&levels->above, bounds.highest);
    distances_begin(&levels->below, -bounds.lowest);
}

void levels_add(struct levels *levels, const int64_t *values, uint64_t count) {
    for (uint64_t i = 0; i < count; i++) {
        if (values[i] > 0) {
            levels->above.bins[values[i] >> levels->above.shift]++;
        } else if (values[i] < 0) {
            levels->below.bins[-values[i] >> levels->below.shift]++;
        }
    }
    levels->count += count;
}

/* The first bin, from the highest down, with which more than `few` are counted. */
static int64_t bin_above_few(const uint64_t bins[BINS], uint64_t few) {
    uint64_t above = 0;
    int64_t bin = BINS;
    while (bin > 0 && above <= few) {
        bin--;
        above += bins[bin];
    }
    return bin;
}

int64_t usual_level(const struct distances *distances, uint64_t count) {
    enum { OUT_OF = 500 };
    int64_t bin = bin_above_few(distances->bins, count / OUT_OF);
    int64_t level = ((bin + 1) << distances->shift) * 3 / 2;
    return level < distances->furthest ? level : distances->furthest;
}
