/* The reads of an SFF file, one after the other. */
#ifndef VIEWER_READS_H
#define VIEWER_READS_H

#include "file.h"
#include "jintarueng.h"

#include <stdbool.h>

/* Many reads are asked for at once, since each call walks the file from its front. */
struct reads {
    const struct file *file;
    uint64_t next;  /* the number of the next read, from one */
    uint64_t last;  /* the last that may be there */
    uint64_t asked; /* how many are asked for at once */
    uint64_t *numbers;
    uint64_t first; /* the number of the first read that is at hand, and how many are */
    uint64_t count;
    uint64_t missing; /* the refusal of the first read that is not there; 0 where all are */
};

/* From the first read on, as far as judging says that they are there. Not without reads_end. */
void reads_begin(struct reads *reads, const struct file *file, const jt_verdict *verdict, uint64_t in_header);

/* The next read, or what it is refused with by itself; false where no other is there. Then `next` tells which is the
   first that is missing, where `missing` is not 0. */
bool reads_next(struct reads *reads, uint64_t *k, struct jt_sff_read *read);

void reads_end(struct reads *reads);

#endif
