/* A file that is written beside its place, and takes its place only when it is whole. */
#ifndef VIEWER_OUTPUT_H
#define VIEWER_OUTPUT_H

#include <limits.h>

struct output {
    int descriptor;
    char place[PATH_MAX]; /* what the file is to be called, links followed */
};

/* NULL, or the reason why the file cannot be written. An existing file is replaced only where it begins with `mark`;
   none is where that is NULL. What is no regular file, as a terminal, is written to as it is. */
const char *output_open(struct output *output, const char *path, const char *mark);

/* NULL, or the reason why the file is not in its place: `failure`, where writing it had one. */
const char *output_close(struct output *output, const char *failure);

/* Removes what is written of a file, if one is being written: for a program that ends before its time. */
void output_abandon(void);

#endif
