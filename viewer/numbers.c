#include "numbers.h"

#include <stdio.h>
#include <stdlib.h>
#include <string.h>

const uint8_t *part_of(const struct file *file, uint64_t start, uint64_t length) {
    if (start > file->length || length > file->length - start) {
        fputs("jtview: a place past the end of the file\n", stderr);
        abort();
    }
    return file->bytes + start;
}

uint8_t byte_at(const struct file *file, uint64_t place) {
    return *part_of(file, place, 1);
}

uint16_t big_endian_16(const struct file *file, uint64_t place) {
    return (uint16_t)(byte_at(file, place) << 8 | byte_at(file, place + 1));
}

uint32_t big_endian_32(const struct file *file, uint64_t place) {
    return (uint32_t)big_endian_16(file, place) << 16 | big_endian_16(file, place + 2);
}

uint16_t little_endian_16(const struct file *file, uint64_t place) {
    return (uint16_t)(byte_at(file, place + 1) << 8 | byte_at(file, place));
}

uint32_t little_endian_32(const struct file *file, uint64_t place) {
    return (uint32_t)little_endian_16(file, place + 2) << 16 | little_endian_16(file, place);
}

float float_of(uint32_t bits) {
    float value;
    memcpy(&value, &bits, sizeof value);
    return value;
}

float big_endian_float(const struct file *file, uint64_t place) {
    return float_of(big_endian_32(file, place));
}

double big_endian_double(const struct file *file, uint64_t place) {
    uint64_t bits = (uint64_t)big_endian_32(file, place) << 32 | big_endian_32(file, place + 4);
    double value;
    memcpy(&value, &bits, sizeof value);
    return value;
}

float little_endian_float(const struct file *file, uint64_t place) {
    return float_of(little_endian_32(file, place));
}
