/* What stands at the top of a picture and of each of its pages: the file's name, the verdict, and what it means. */
#ifndef VIEWER_HEAD_H
#define VIEWER_HEAD_H

#include "picture.h"

/* How high it is: that of the first page, which is that of a picture without pages too, and of those behind it. */
int head_height(const struct picture *picture, int64_t page);

/* Draws it for a page, from one. */
void draw_head(struct picture *picture, int64_t page);

/* The last part of a path. */
const char *file_name(const char *path);

#endif
