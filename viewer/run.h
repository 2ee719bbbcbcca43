/* An ABIF run as it is drawn: its channels, their base order, the called letters, their places and qualities. */
#ifndef VIEWER_RUN_H
#define VIEWER_RUN_H

#include "file.h"
#include "jintarueng.h"

#include <stdbool.h>

/* The most channels that are drawn, and those that have a base. */
enum { MOST_CHANNELS = 16, BASES = 4 };

/* An item of whole numbers, or its refusal, with which there are none. */
struct series {
    char tag[16]; /* as in "DATA 9" */
    uint32_t name;
    int32_t number;
    uint64_t refusal;
    uint64_t count;
};

struct run {
    const struct file *file;
    bool raw;            /* the channels are the raw ones, over which no letters stand */
    bool fragment;       /* the file has no base order and no called letters, and need not */
    struct series dyes;  /* Dye# 1 */
    int64_t stated_dyes; /* what Dye# 1 says, or 0 where that is no number of dyes */
    int channel_count;
    struct series channels[MOST_CHANNELS];
    struct series order;
    char bases[MOST_CHANNELS]; /* each channel's base, or 0 where it has none or the order is not known */
    struct series letters;
    struct series places;
    struct series qualities;
    bool placed;    /* there is a place for each letter */
    bool qualified; /* there is a quality for each letter */
};

/* The analysed channels; the raw ones where that is asked for, and where the file has no analysed one. */
void run_read(struct run *run, const struct file *file, bool raw);

/* Up to `room` values of an item, from number `first`, from 0, on; answers how many. */
uint64_t series_values(const struct file *file, const struct series *series, uint64_t first, int64_t *values,
                       uint64_t room);

/* Values of an item, some thousands at a time: so many, from number `first`, from 0, on. */
typedef void visit_values(void *context, uint64_t first, const int64_t *values, uint64_t count);

/* Visits the values from number `first` on, as far as they are there, to just before number `behind`. */
void series_visit(const struct file *file, const struct series *series, uint64_t first, uint64_t behind,
                  visit_values *visit, void *context);

/* An item's first element, where it is a whole number; else `otherwise`. */
int64_t first_value(const struct file *file, const char *name, int32_t number, int64_t otherwise);

/* Where the name that the file gives its sample stands, or its refusal. */
jt_part run_sample_name(const struct file *file);

/* How many channels are refused, and whether the directory has one at all. */
int refused_channels(const struct run *run);
bool has_channels(const struct run *run);

/* How many values all traces have that the letter stands for: as many as the shortest of them. 0 without an order. */
uint64_t traced_length(const struct run *run, int64_t letter);

/* How many values the longest channel has that is there. */
uint64_t run_length(const struct run *run);

#endif
