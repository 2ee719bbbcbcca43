#include "file.h"

#include "bytes.h"
#include "text.h"

#include <errno.h>
#include <fcntl.h>
#include <limits.h>
#include <stdio.h>
#include <string.h>
#include <sys/stat.h>
#include <unistd.h>

/* The file behind the descriptor, which was opened with O_NONBLOCK: a pipe that nobody writes to is not waited for. */
static const char *take_file(struct file *file, int descriptor) {
    struct stat state;
    if (fstat(descriptor, &state) != 0) {
        return strerror(errno);
    }
    if (!S_ISREG(state.st_mode)) {
        return S_ISDIR(state.st_mode) ? strerror(EISDIR) : "Not a regular file";
    }
    file->device = state.st_dev;
    file->number = state.st_ino;
    file->length = (size_t)state.st_size;
    if (file->length == 0) {
        return NULL;
    }
    file->bytes = bytes_take(descriptor, file->length);
    return file->bytes == NULL ? strerror(errno) : NULL;
}

/* The name of the file that was opened last, as it is shown: no byte takes more than three. */
static char at_hand[3 * PATH_MAX];

const char *file_at_hand(void) {
    return at_hand;
}

/* A path that is too long to be opened need not be told to its end. */
static void keep_at_hand(const char *path) {
    size_t length = strlen(path);
    size_t used = 0;
    at_hand[0] = '\0';
    while (length > 0 && used + sizeof TEXT_UNSHOWN < sizeof at_hand) {
        struct character character = text_character((const uint8_t *)path, length);
        used += (size_t)snprintf(at_hand + used, sizeof at_hand - used, "%s", character.shown);
        path += character.length;
        length -= character.length;
    }
}

const char *file_open(struct file *file, const char *path) {
    *file = (struct file){.path = path};
    keep_at_hand(path);
    int descriptor = open(path, O_RDONLY | O_NONBLOCK | O_CLOEXEC);
    if (descriptor < 0) {
        return strerror(errno);
    }
    const char *reason = take_file(file, descriptor);
    close(descriptor);
    return reason;
}

void file_close(struct file *file) {
    if (file->bytes != NULL) {
        bytes_release(file->bytes, file->length);
    }
    *file = (struct file){.path = file->path};
}
