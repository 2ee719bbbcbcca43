/* What all pictures have in common: what they are drawn from, hatched boxes, levels, colours. */
#ifndef VIEWER_PICTURE_H
#define VIEWER_PICTURE_H

#include "explain.h"
#include "format.h"
#include "svg.h"

enum { PICTURE_WIDTH = 1100, PICTURE_MARGIN = 20, PLOT_LEFT = 92, PLOT_WIDTH = 1000 };

/* A line of the list of parts, or of a legend; and the most rows of a picture. */
enum { PART_HEIGHT = 26, MOST_ROWS = 200 };

struct picture {
    const struct file *file;
    struct judgement judgement;
    struct explanation explanation; /* its sentences with a capital letter, since they stand by themselves */
    bool lost;                      /* nothing in the file can be found: its header or its table cannot be read */
    const char *paper;              /* as CSS calls it, where the picture is made of pages; else NULL */
    int page_height;
    int64_t pages;
    struct svg svg;
};

struct box {
    int64_t x, y, width, height;
};

/* What its own call refuses: a channel or another part of the file. */
struct refused {
    const char *part;
    const char *label; /* what it is called in the picture */
    uint64_t count;    /* how many of them, where that is to be told, else 0 */
    uint64_t refusal;
    const char *words; /* what is said of it, NULL for what the refusal says by itself */
};

/* A hatched box in its place, with the refusal in it. */
void draw_refused(struct picture *picture, struct refused refused, struct box box);

/* Words on white, so that they can be read over hatching, from `x` on; and how wide they are at most. */
void draw_words(struct picture *picture, const char *class, const char *words, int64_t x, int64_t y, unsigned room);
int64_t box_words_width(const char *words);

/* A line across a plot, so many tenths of a pixel below its top, with its number at the left where there is room. */
void draw_level(struct picture *picture, int64_t tenths);
void draw_level_number(struct picture *picture, int64_t tenths, int64_t number);

/* The mark beside what is drawn of a refused file; it ends at `x`. */
void draw_file_refused(struct picture *picture, int x, int64_t y);

/* A letter's colour: dark enough on white, told apart by a colour-blind reader, and in grey by its lightness. */
const char *letter_colour(char letter);

#endif
