/* The bytes behind a file's descriptor; the tests have others, in a heap block of just the file's length. */
#ifndef VIEWER_BYTES_H
#define VIEWER_BYTES_H

#include <stddef.h>
#include <stdint.h>

/* So many bytes, not none; NULL, with errno, where they cannot be had. */
const uint8_t *bytes_take(int descriptor, size_t length);
void bytes_release(const uint8_t *bytes, size_t length);

#endif
