/* A file's bytes, lent to the library. */
#ifndef VIEWER_FILE_H
#define VIEWER_FILE_H

#include <stddef.h>
#include <stdint.h>
#include <sys/types.h>

struct file {
    const char *path;
    const uint8_t *bytes; /* NULL for an empty file */
    size_t length;
    dev_t device; /* with `number`, which file it is */
    ino_t number;
};

/* NULL, or the reason why the file cannot be read. */
const char *file_open(struct file *file, const char *path);

void file_close(struct file *file);

/* The name of the file that was opened last, as it is shown, for a message when its bytes fail. */
const char *file_at_hand(void);

#endif
