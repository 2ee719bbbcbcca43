/* How far a long job has come, on a terminal. */
#ifndef VIEWER_PROGRESS_H
#define VIEWER_PROGRESS_H

#include <stdint.h>

/* Begins a job that is called `what`, as in "drawing". */
void progress_begin(const char *what);

/* So much is done of so much; shown on a terminal from the second second on, some times a second. */
void progress_show(uint64_t done, uint64_t of);

/* The job is done, and the line erased. */
void progress_end(void);

#endif
