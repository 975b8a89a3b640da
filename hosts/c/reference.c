/*
 * An implementation of flash addresses that shares nothing with the proved one.
 * The test holds the two against each other, the benchmark their times.
 *
 * FAULT, 0 if not given, picks a mistake for the test to find: see hosts/c/run.
 */
#include "reference.h"

#include <endian.h>
#include <string.h>

#ifndef FAULT
#define FAULT 0
#endif

enum { DOMAIN_BIT = FAULT == 4 ? 47 : 48 };

unsigned reference_offset_bits(uint64_t n)
{
    return 64 - (unsigned)__builtin_clzll(n - 1);
}

static int between(uint64_t low, uint64_t n, uint64_t high)
{
    return low <= n && n <= high;
}

/* The ADUs of a block, or 0 where the configuration is outside the limits. */
static uint64_t block_adus(uint64_t pages, uint64_t dies, uint64_t planes, uint64_t adus,
                           uint64_t blocks, uint64_t rated, uint64_t period)
{
    uint64_t n;

    if (!between(128, pages, 8192) || !between(1, dies, 64) || !between(1, planes, 64) ||
        !between(1, adus, 256) || !between(1, blocks, 256) || !between(1, rated, 65535) ||
        !between(1, period, 65535))
        return 0;
    n = pages * dies * planes * adus;
    return n <= 1048576 ? n : 0;
}

static void put64(uint8_t *out, uint64_t n)
{
    n = htole64(n);
    memcpy(out, &n, sizeof n);
}

uint64_t reference_create(uint64_t pages, uint64_t dies, uint64_t planes, uint64_t adus,
                          uint64_t blocks, uint64_t rated, uint64_t period, uint64_t domain,
                          uint64_t block, uint64_t page, uint64_t die, uint64_t plane,
                          uint64_t adu, uint8_t *out, size_t out_len)
{
    uint64_t capacity = block_adus(pages, dies, planes, adus, blocks, rated, period);
    uint64_t offset;
    int in_range = block < blocks && page < pages && die < dies && plane < planes && adu < adus;

    if (capacity == 0)
        return 1;
    if (FAULT == 6 && !in_range)
        return 6;
    if (!between(1, domain, 16))
        return 4;
    if (!in_range)
        return 6;
    if (out_len < 8)
        return 7;
    if (FAULT == 1)
        offset = ((page * 64 + die) * 64 + plane) * 256 + adu;
    else if (FAULT == 3)
        offset = ((page * planes + plane) * dies + die) * adus + adu;
    else
        offset = ((page * dies + die) * planes + plane) * adus + adu;
    put64(out, domain << DOMAIN_BIT | block << reference_offset_bits(capacity) | offset);
    if (FAULT == 5 && out_len > 8)
        out[8] ^= 1;
    return 0;
}

uint64_t reference_parse(uint64_t pages, uint64_t dies, uint64_t planes, uint64_t adus,
                         uint64_t blocks, uint64_t rated, uint64_t period, uint64_t word,
                         uint8_t *out, size_t out_len)
{
    uint64_t capacity = block_adus(pages, dies, planes, adus, blocks, rated, period);
    uint64_t domain, block, offset, rest;
    unsigned bits;
    int in_range;

    if (capacity == 0)
        return 1;
    bits = reference_offset_bits(capacity);
    domain = word >> DOMAIN_BIT;
    block = (word & ((1ull << DOMAIN_BIT) - 1)) >> bits;
    offset = word & ((1ull << bits) - 1);
    in_range = block < blocks && (FAULT == 2 || offset < capacity);
    if (FAULT == 6 && !in_range)
        return 6;
    if (!between(1, domain, 16))
        return 4;
    if (!in_range)
        return 6;
    if (out_len < 56)
        return 7;
    put64(out, domain);
    put64(out + 8, block);
    put64(out + 16, offset);
    put64(out + 48, offset % adus);
    rest = offset / adus;
    put64(out + 40, rest % planes);
    rest /= planes;
    put64(out + 32, rest % dies);
    put64(out + 24, rest / dies);
    return 0;
}
