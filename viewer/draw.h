/* The pictures. */
#ifndef VIEWER_DRAW_H
#define VIEWER_DRAW_H

#include "picture.h"

/* How many points a row has where nothing else is asked for. */
enum { USUAL_POINTS = 500 };

struct draw_options {
    const char *output;
    bool raw;          /* ABIF: the raw channels */
    uint64_t read;     /* SFF: which read, from one */
    uint64_t points;   /* ABIF: how many in a row */
    bool letter_paper; /* pages of Letter, and not of A4 */
    bool landscape;
};

/* Each draws the whole picture and tells whether all that it is made of was answered. */
bool draw_abif(struct picture *picture, const struct draw_options *options);
bool draw_sff(struct picture *picture, const struct draw_options *options);
bool draw_gtc(struct picture *picture);

/* Draws the file into the output, and prints the file's line. */
enum status draw_file(const struct file *file, const struct draw_options *options);

#endif
