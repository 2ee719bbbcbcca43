/* A file's bytes in a heap block of just its length, so that the address sanitizer sees a byte past the end that is
   looked at; behind a mapped file there may be zeros to the end of the page. */
#include "bytes.h"

#include <stdlib.h>
#include <unistd.h>

const uint8_t *bytes_take(int descriptor, size_t length) {
    uint8_t *bytes = malloc(length);
    if (bytes != NULL && read(descriptor, bytes, length) != (ssize_t)length) {
        free(bytes);
        return NULL;
    }
    return bytes;
}

void bytes_release(const uint8_t *bytes, size_t length) {
    (void)length;
    free((void *)bytes);
}
