#include "bytes.h"

#include <sys/mman.h>

const uint8_t *bytes_take(int descriptor, size_t length) {
    void *bytes = mmap(NULL, length, PROT_READ, MAP_PRIVATE, descriptor, 0);
    return bytes == MAP_FAILED ? NULL : bytes;
}

void bytes_release(const uint8_t *bytes, size_t length) {
    munmap((void *)bytes, length);
}
