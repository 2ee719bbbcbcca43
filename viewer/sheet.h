/* A picture's blocks, one below the other, as one picture or on pages; no block is split by a page's end. */
#ifndef VIEWER_SHEET_H
#define VIEWER_SHEET_H

#include "picture.h"

enum { MOST_BLOCKS = MOST_ROWS + 64 };

/* Draws block number `index` of its kind with its top at `y`. */
typedef void draw_block(void *subject, uint64_t index, int64_t y);

struct block {
    int64_t height;
    draw_block *draw;
    uint64_t index;
};

struct sheet {
    size_t count;
    struct block blocks[MOST_BLOCKS];
};

void sheet_add(struct sheet *sheet, int64_t height, draw_block *draw, uint64_t index);

/* Draws the whole picture: its head, and each block in turn. */
void sheet_draw(const struct sheet *sheet, struct picture *picture, void *subject);

/* How a picture begins, of one piece or made of pages. */
extern const char SVG_MARK[];
extern const char PAGES_MARK[];

#endif
