#include "output.h"

#include <errno.h>
#include <fcntl.h>
#include <signal.h>
#include <stdbool.h>
#include <stdio.h>
#include <stdlib.h>
#include <string.h>
#include <sys/stat.h>
#include <unistd.h>

/* The file beside its place that is being written, or none. */
static char unfinished[PATH_MAX];
static volatile sig_atomic_t is_unfinished;

void output_abandon(void) {
    if (is_unfinished) {
        unlink(unfinished);
    }
}

/* With the rights that a file has that is just made. */
static void give_usual_rights(int descriptor) {
    mode_t mask = umask(0);
    umask(mask);
    fchmod(descriptor, 0666 & ~mask);
}

static bool begins_with(const char *path, const char *mark) {
    char front[256];
    size_t length = strlen(mark);
    FILE *file = fopen(path, "rb");
    bool begins = file != NULL && length <= sizeof front && fread(front, 1, length, file) == length &&
                  memcmp(front, mark, length) == 0;
    if (file != NULL) {
        fclose(file);
    }
    return begins;
}

static int open_beside(const char *place) {
    if ((size_t)snprintf(unfinished, sizeof unfinished, "%s.XXXXXX", place) >= sizeof unfinished) {
        errno = ENAMETOOLONG;
        return -1;
    }
    int descriptor = mkstemp(unfinished);
    if (descriptor >= 0) {
        is_unfinished = 1;
        give_usual_rights(descriptor);
    }
    return descriptor;
}

/* Where the path leads to a regular file: why it is not to be replaced, else NULL, with its own place. */
static const char *settle_place(struct output *output, const char *path, const char *mark) {
    if (realpath(path, output->place) == NULL) {
        return strerror(errno);
    }
    if (mark == NULL) {
        return "is there already, and is not replaced";
    }
    return begins_with(output->place, mark) ? NULL : "is no picture of this kind, and is not replaced";
}

const char *output_open(struct output *output, const char *path, const char *mark) {
    struct stat state;
    const char *reason = NULL;
    output->descriptor = -1;
    if (stat(path, &state) != 0) {
        bool fits = (size_t)snprintf(output->place, sizeof output->place, "%s", path) < sizeof output->place;
        reason = fits ? NULL : strerror(ENAMETOOLONG);
    } else if (S_ISREG(state.st_mode)) {
        reason = settle_place(output, path, mark);
    } else {
        output->descriptor = open(path, O_WRONLY | O_CLOEXEC);
        return output->descriptor < 0 ? strerror(errno) : NULL;
    }
    if (reason == NULL) {
        output->descriptor = open_beside(output->place);
        reason = output->descriptor < 0 ? strerror(errno) : NULL;
    }
    return reason;
}

const char *output_close(struct output *output, const char *failure) {
    if (close(output->descriptor) != 0 && failure == NULL) {
        failure = strerror(errno);
    }
    if (is_unfinished && failure == NULL && rename(unfinished, output->place) != 0) {
        failure = strerror(errno);
    }
    if (failure != NULL) {
        output_abandon();
    }
    is_unfinished = 0;
    return failure;
}
