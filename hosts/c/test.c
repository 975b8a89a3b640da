/*
 * Holds the proved functions against the reference on random inputs: valid ones,
 * ones with any number spoiled, damaged words, and buffers of every length up to
 * 80. The buffer ends where its page does, and the next page can't be touched; the
 * bytes before it and those beyond what success fills must stay as they were.
 *
 * Exits with 1 at the first difference, and where some answer never came.
 */
#include "inputs.h"
#include "reference.h"
#include "sbm.h"

#include <inttypes.h>
#include <stdio.h>
#include <stdlib.h>
#include <string.h>
#include <sys/mman.h>
#include <unistd.h>

enum { ROUNDS = 1500000, LONGEST = 80, GUARD = 64, ANSWERS = 8 };

/* LONGEST bytes and GUARD bytes before them, in front of a page that can't be touched. */
struct buffer {
    uint8_t *end;
};

static struct buffer new_buffer(void)
{
    size_t page = (size_t)sysconf(_SC_PAGESIZE);
    uint8_t *start = mmap(NULL, 2 * page, PROT_READ | PROT_WRITE, MAP_PRIVATE | MAP_ANONYMOUS, -1, 0);
    struct buffer b;

    if (start == MAP_FAILED || mprotect(start + page, page, PROT_NONE) != 0) {
        perror("test: no guarded buffer");
        exit(2);
    }
    b.end = start + page;
    return b;
}

static uint8_t *whole(struct buffer b)
{
    return b.end - LONGEST - GUARD;
}

static void refill(struct buffer b, uint64_t *state)
{
    uint8_t *at = whole(b);

    for (; at < b.end; at += 8) {
        uint64_t r = next_random(state);
        memcpy(at, &r, 8);
    }
}

static void copy(struct buffer to, struct buffer from)
{
    memcpy(whole(to), whole(from), LONGEST + GUARD);
}

static int same(struct buffer a, struct buffer b)
{
    return memcmp(whole(a), whole(b), LONGEST + GUARD) == 0;
}

/* One number of the shape just outside its range, or anywhere; or C just above its limit. */
static void spoil_shape(struct shape *s, uint64_t *state)
{
    uint64_t *numbers[] = {&s->pages, &s->dies, &s->planes, &s->adus, &s->blocks, &s->rated, &s->period};
    uint64_t tops[] = {8192, 64, 64, 256, 256, 65535, 65535};
    unsigned i = (unsigned)(next_random(state) % 7);

    switch (next_random(state) % 5) {
    case 0:
        *numbers[i] = i == 0 ? 127 : 0;
        break;
    case 1:
        *numbers[i] = tops[i] + 1;
        break;
    case 2:
        *numbers[i] = next_random(state);
        break;
    case 3: /* products of these wrap to 0 in 64 bits */
        s->pages = 1ull << 32;
        s->dies = 1ull << 32;
        break;
    default:
        s->pages = 8192;
        s->dies = 64;
        s->planes = random_between(state, 3, 64);
        s->adus = random_between(state, 1, 256);
    }
}

/* One of the parts at its bound, or anywhere. */
static void spoil_parts(struct parts *p, struct shape s, uint64_t *state)
{
    uint64_t *numbers[] = {&p->domain, &p->block, &p->page, &p->die, &p->plane, &p->adu};
    uint64_t bounds[] = {17, s.blocks, s.pages, s.dies, s.planes, s.adus};
    unsigned i = (unsigned)(next_random(state) % 6);

    switch (next_random(state) % 3) {
    case 0:
        *numbers[i] = bounds[i];
        break;
    case 1:
        *numbers[i] = next_random(state);
        break;
    default:
        p->domain = 0;
    }
}

/* A word with a bit flipped, an offset or a block from its bound on, or any word. */
static uint64_t spoil_word(uint64_t word, struct shape s, uint64_t *state)
{
    uint64_t capacity = s.pages * s.dies * s.planes * s.adus;
    unsigned bits = reference_offset_bits(capacity);
    uint64_t low = (1ull << bits) - 1;

    switch (next_random(state) % 4) {
    case 0:
        return word ^ 1ull << next_random(state) % 64;
    case 1:
        return capacity > low ? word : (word & ~low) | random_between(state, capacity, low);
    case 2:
        return (word & low) | s.blocks << bits | random_between(state, 1, 16) << 48;
    default:
        return next_random(state);
    }
}

static size_t random_length(uint64_t *state, size_t enough)
{
    switch (next_random(state) % 4) {
    case 0:
        return enough - 1;
    case 1:
        return random_between(state, 0, LONGEST);
    default:
        return random_between(state, enough, LONGEST);
    }
}

/* For each answer, how often it came. */
static uint64_t created[ANSWERS], parsed[ANSWERS];

static void count(uint64_t *counts, uint64_t answer)
{
    counts[answer < ANSWERS ? answer : ANSWERS - 1]++;
}

static void fail(const char *what, struct shape s, uint64_t want, uint64_t got)
{
    printf("test: %s differs: answer %" PRIu64 ", reference %" PRIu64 "; shape %" PRIu64 " %" PRIu64 " %" PRIu64
           " %" PRIu64 " %" PRIu64 " %" PRIu64 " %" PRIu64 "\n",
           what, got, want, s.pages, s.dies, s.planes, s.adus, s.blocks, s.rated, s.period);
    exit(1);
}

static void try_create(struct shape s, struct parts p, size_t length, struct buffer a, struct buffer b, uint64_t *state)
{
    uint64_t want, got;

    refill(a, state);
    copy(b, a);
    want = reference_create(s.pages, s.dies, s.planes, s.adus, s.blocks, s.rated, s.period, p.domain, p.block, p.page,
                            p.die, p.plane, p.adu, a.end - length, length);
    got = sbm_create_flash_address(s.pages, s.dies, s.planes, s.adus, s.blocks, s.rated, s.period, p.domain, p.block,
                                   p.page, p.die, p.plane, p.adu, b.end - length, length);
    if (want != got || !same(a, b))
        fail("sbm_create_flash_address", s, want, got);
    count(created, got);
}

static void try_parse(struct shape s, uint64_t word, size_t length, struct buffer a, struct buffer b, uint64_t *state)
{
    uint64_t want, got;

    refill(a, state);
    copy(b, a);
    want = reference_parse(s.pages, s.dies, s.planes, s.adus, s.blocks, s.rated, s.period, word, a.end - length, length);
    got = sbm_parse_flash_address(s.pages, s.dies, s.planes, s.adus, s.blocks, s.rated, s.period, word, b.end - length,
                                  length);
    if (want != got || !same(a, b))
        fail("sbm_parse_flash_address", s, want, got);
    count(parsed, got);
}

/* The word of parts, by the reference. */
static uint64_t word_of(struct shape s, struct parts p)
{
    uint8_t bytes[8];
    uint64_t word = 0;
    int i;

    if (reference_create(s.pages, s.dies, s.planes, s.adus, s.blocks, s.rated, s.period, p.domain, p.block, p.page,
                         p.die, p.plane, p.adu, bytes, sizeof bytes) != 0) {
        puts("test: the reference refuses valid parts");
        exit(1);
    }
    for (i = 7; i >= 0; i--)
        word = word << 8 | bytes[i];
    return word;
}

/* The reference counts digits; by definition b is the first with n <= 2^b. */
static void check_offset_bits(void)
{
    uint64_t n;
    unsigned b = 0;

    for (n = 2; n <= 1048576; n++) {
        while (1ull << b < n)
            b++;
        if (reference_offset_bits(n) != b) {
            printf("test: the reference's b of %" PRIu64 " is wrong\n", n);
            exit(1);
        }
    }
}

static void check_counts(const char *name, const uint64_t *counts)
{
    static const int expected[] = {0, 1, 4, 6, 7};
    unsigned i;

    printf("%s:", name);
    for (i = 0; i < sizeof expected / sizeof *expected; i++) {
        printf(" %" PRIu64 " answered %d%s", counts[expected[i]], expected[i], i < 4 ? "," : "\n");
        if (counts[expected[i]] < ROUNDS / 100) {
            printf("\ntest: too few inputs get %d\n", expected[i]);
            exit(1);
        }
    }
}

int main(void)
{
    uint64_t state = 20261115;
    struct buffer a = new_buffer(), b = new_buffer();
    int round;

    check_offset_bits();
    for (round = 0; round < ROUNDS; round++) {
        struct shape s = random_shape(&state);
        struct parts p = random_parts(&state, s);
        uint64_t word = word_of(s, p);
        uint64_t kind = next_random(&state) % 4;

        if (kind == 1) {
            word = spoil_word(word, s, &state);
            spoil_parts(&p, s, &state);
        }
        if (kind == 2)
            spoil_shape(&s, &state);
        if (kind == 3) { /* several noes at once, for the order of the questions */
            word = spoil_word(word, s, &state);
            spoil_parts(&p, s, &state);
            spoil_parts(&p, s, &state);
            if (next_random(&state) % 2)
                spoil_shape(&s, &state);
        }
        try_create(s, p, random_length(&state, SBM_ADDRESS_BYTES), a, b, &state);
        try_parse(s, word, random_length(&state, SBM_PARTS_BYTES), a, b, &state);
    }
    check_counts("sbm_create_flash_address", created);
    check_counts("sbm_parse_flash_address", parsed);
    return 0;
}
