/* The two functions of sbm.h once more, written in C from the same paper. */
#ifndef REFERENCE_H
#define REFERENCE_H

#include <stddef.h>
#include <stdint.h>

uint64_t reference_create(uint64_t pages, uint64_t dies, uint64_t planes, uint64_t adus,
                          uint64_t blocks, uint64_t rated, uint64_t period, uint64_t domain,
                          uint64_t block, uint64_t page, uint64_t die, uint64_t plane,
                          uint64_t adu, uint8_t *out, size_t out_len);

uint64_t reference_parse(uint64_t pages, uint64_t dies, uint64_t planes, uint64_t adus,
                         uint64_t blocks, uint64_t rated, uint64_t period, uint64_t word,
                         uint8_t *out, size_t out_len);

/* The least b with n <= 2^b, for n at least 2. */
unsigned reference_offset_bits(uint64_t n);

#endif
