/* Bytes, numbers and floats as they stand in a file, at places that the library answered with. */
#ifndef VIEWER_NUMBERS_H
#define VIEWER_NUMBERS_H

#include "file.h"

/* Past the end each of them stops the program: nothing is ever shown of bytes that are not there. */
const uint8_t *part_of(const struct file *file, uint64_t start, uint64_t length);
uint8_t byte_at(const struct file *file, uint64_t place);
uint16_t big_endian_16(const struct file *file, uint64_t place);
uint32_t big_endian_32(const struct file *file, uint64_t place);
float big_endian_float(const struct file *file, uint64_t place);
double big_endian_double(const struct file *file, uint64_t place);
uint16_t little_endian_16(const struct file *file, uint64_t place);
uint32_t little_endian_32(const struct file *file, uint64_t place);
float little_endian_float(const struct file *file, uint64_t place);

/* The float that has these bits. */
float float_of(uint32_t bits);

#endif
