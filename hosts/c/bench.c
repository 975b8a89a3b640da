/*
 * Times the proved functions against the reference, both called through the same
 * loop on the same inputs. Rounds alternate, so that what else the machine does
 * falls on both; the figure of each is its median round.
 */
#include "inputs.h"
#include "reference.h"
#include "sbm.h"

#include <inttypes.h>
#include <stdio.h>
#include <stdlib.h>
#include <string.h>
#include <time.h>

enum { INPUTS = 4096, PASSES = 250, ROUNDS = 41 };

typedef uint64_t create_function(uint64_t, uint64_t, uint64_t, uint64_t, uint64_t, uint64_t, uint64_t, uint64_t,
                                 uint64_t, uint64_t, uint64_t, uint64_t, uint64_t, uint8_t *, size_t);
typedef uint64_t parse_function(uint64_t, uint64_t, uint64_t, uint64_t, uint64_t, uint64_t, uint64_t, uint64_t,
                                uint8_t *, size_t);

static struct shape shapes[INPUTS];
static struct parts parts[INPUTS];
static uint64_t words[INPUTS];

static double now(void)
{
    struct timespec t;

    clock_gettime(CLOCK_MONOTONIC, &t);
    return (double)t.tv_sec * 1e9 + (double)t.tv_nsec;
}

/* Nanoseconds for a call; the sum keeps the calls from being dropped. */
static double time_create(create_function *f, uint64_t *sum)
{
    uint8_t out[8];
    double start = now();
    int pass, i;

    for (pass = 0; pass < PASSES; pass++)
        for (i = 0; i < INPUTS; i++) {
            struct shape *s = &shapes[i];
            struct parts *p = &parts[i];

            *sum += f(s->pages, s->dies, s->planes, s->adus, s->blocks, s->rated, s->period, p->domain, p->block,
                      p->page, p->die, p->plane, p->adu, out, sizeof out) + out[0];
        }
    return (now() - start) / PASSES / INPUTS;
}

static double time_parse(parse_function *f, uint64_t *sum)
{
    uint8_t out[56];
    double start = now();
    int pass, i;

    for (pass = 0; pass < PASSES; pass++)
        for (i = 0; i < INPUTS; i++) {
            struct shape *s = &shapes[i];

            *sum += f(s->pages, s->dies, s->planes, s->adus, s->blocks, s->rated, s->period, words[i], out,
                      sizeof out) + out[0];
        }
    return (now() - start) / PASSES / INPUTS;
}

static int ascending(const void *a, const void *b)
{
    double x = *(const double *)a, y = *(const double *)b;

    return (x > y) - (x < y);
}

static double median(double *times)
{
    qsort(times, ROUNDS, sizeof *times, ascending);
    return times[ROUNDS / 2];
}

static void report(const char *name, double *proved, double *reference)
{
    double p = median(proved), r = median(reference);

    printf("%-26s %6.2f ns proved, %6.2f ns reference, ratio %.2f\n", name, p, r, p / r);
}

int main(void)
{
    double proved[ROUNDS], reference[ROUNDS];
    uint64_t state = 20261115, sum = 0;
    int i;

    for (i = 0; i < INPUTS; i++) {
        struct shape s = shapes[i] = random_shape(&state);
        struct parts p = parts[i] = random_parts(&state, s);
        uint8_t bytes[8];

        if (reference_create(s.pages, s.dies, s.planes, s.adus, s.blocks, s.rated, s.period, p.domain, p.block, p.page,
                             p.die, p.plane, p.adu, bytes, sizeof bytes) != 0)
            return 1;
        memcpy(&words[i], bytes, sizeof bytes);
    }
    for (i = 0; i < ROUNDS; i++) {
        proved[i] = time_create(sbm_create_flash_address, &sum);
        reference[i] = time_create(reference_create, &sum);
    }
    report("sbm_create_flash_address", proved, reference);
    for (i = 0; i < ROUNDS; i++) {
        proved[i] = time_parse(sbm_parse_flash_address, &sum);
        reference[i] = time_parse(reference_parse, &sum);
    }
    report("sbm_parse_flash_address", proved, reference);
    return sum == 0;
}
