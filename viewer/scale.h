/* The scale of an axis. */
#ifndef VIEWER_SCALE_H
#define VIEWER_SCALE_H

#include <stdint.h>

/* A round number that is not below the value. */
int64_t round_above(int64_t value);

/* The lowest and the highest of some values; of none the lowest is above the highest. */
struct bounds {
    int64_t lowest;
    int64_t highest;
};

struct bounds bounds_of_none(void);
struct bounds bounds_with(struct bounds bounds, const int64_t *values, uint64_t count);
struct bounds bounds_of_both(struct bounds left, struct bounds right);

enum { BINS = 4096 };

/* How many values lie at each distance on one side of 0, `shift` bits coarser; none lies further than `furthest`. */
struct distances {
    int64_t furthest;
    unsigned shift;
    uint64_t bins[BINS];
};

/* How many values there are, and how far they lie above and below 0. */
struct levels {
    uint64_t count;
    struct distances above;
    struct distances below;
};

/* No value yet, and none to come that lies outside of the bounds, with 0 among them. */
void levels_begin(struct levels *levels, struct bounds bounds);
void levels_add(struct levels *levels, const int64_t *values, uint64_t count);

/* A level that all but one in 500 of `count` values stay below, with room above them, and no more than the furthest. */
int64_t usual_level(const struct distances *distances, uint64_t count);

#endif
