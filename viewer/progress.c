#include "progress.h"

#include <inttypes.h>
#include <stdbool.h>
#include <stdio.h>
#include <time.h>
#include <unistd.h>

enum { MILLISECONDS = 1000, FIRST_AFTER = 1000, NEXT_AFTER = 200 };

static const char *job;
static bool shown;
static int64_t next; /* the time when it is to be told, in milliseconds */

static int64_t now(void) {
    struct timespec time;
    clock_gettime(CLOCK_MONOTONIC, &time);
    return (int64_t)time.tv_sec * MILLISECONDS + time.tv_nsec / 1000000;
}

void progress_begin(const char *what) {
    job = isatty(STDERR_FILENO) ? what : NULL;
    shown = false;
    next = now() + FIRST_AFTER;
}

void progress_show(uint64_t done, uint64_t of) {
    if (job == NULL || now() < next || of == 0) {
        return;
    }
    next = now() + NEXT_AFTER;
    shown = true;
    fprintf(stderr, "\r%s: %" PRIu64 " %% ...\033[K", job, (uint64_t)(100.0 * (double)done / (double)of));
    fflush(stderr);
}

void progress_end(void) {
    if (job != NULL && shown) {
        fputs("\r\033[K", stderr);
        fflush(stderr);
    }
    job = NULL;
}
