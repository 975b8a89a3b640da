/* Random shapes and addresses, the same in every run. */
#ifndef INPUTS_H
#define INPUTS_H

#include <stdint.h>

struct shape {
    uint64_t pages, dies, planes, adus, blocks, rated, period;
};

struct parts {
    uint64_t domain, block, page, die, plane, adu;
};

/* The next of a sequence that the state fixes (splitmix64). */
static inline uint64_t next_random(uint64_t *state)
{
    uint64_t z = *state += 0x9e3779b97f4a7c15u;

    z = (z ^ z >> 30) * 0xbf58476d1ce4e5b9u;
    z = (z ^ z >> 27) * 0x94d049bb133111ebu;
    return z ^ z >> 31;
}

/* A number from low to high. */
static inline uint64_t random_between(uint64_t *state, uint64_t low, uint64_t high)
{
    return low + next_random(state) % (high - low + 1);
}

/* A number from 1 to high, small ones as likely as large ones. */
static inline uint64_t random_size(uint64_t *state, uint64_t high)
{
    uint64_t most = high;

    while (most > 1 && next_random(state) % 2)
        most = (most + 1) / 2;
    return random_between(state, 1, most);
}

/* A shape within the limits. */
static inline struct shape random_shape(uint64_t *state)
{
    struct shape s;

    do {
        s.pages = 127 + random_size(state, 8192 - 127);
        s.dies = random_size(state, 64);
        s.planes = random_size(state, 64);
        s.adus = random_size(state, 256);
    } while (s.pages * s.dies * s.planes * s.adus > 1048576);
    s.blocks = random_size(state, 256);
    s.rated = random_size(state, 65535);
    s.period = random_size(state, 65535);
    return s;
}

/* A domain, a block and elements of the shape. */
static inline struct parts random_parts(uint64_t *state, struct shape s)
{
    struct parts p;

    p.domain = random_between(state, 1, 16);
    p.block = random_between(state, 0, s.blocks - 1);
    p.page = random_between(state, 0, s.pages - 1);
    p.die = random_between(state, 0, s.dies - 1);
    p.plane = random_between(state, 0, s.planes - 1);
    p.adu = random_between(state, 0, s.adus - 1);
    return p;
}

#endif
