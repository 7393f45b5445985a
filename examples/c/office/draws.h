/* Draws by a seed (SplitMix64): the same seed gives the same run on every machine. */
#ifndef DRAWS_H
#define DRAWS_H

#include <stdint.h>

typedef struct {
    uint64_t state;
} draws;

static inline uint64_t drawn(draws *d) {
    uint64_t z = d->state += 0x9E3779B97F4A7C15u;
    z = (z ^ z >> 30) * 0xBF58476D1CE4E5B9u;
    z = (z ^ z >> 27) * 0x94D049BB133111EBu;
    return z ^ z >> 31;
}

/* A number from 0 to n - 1. */
static inline uint32_t below(draws *d, uint32_t n) { return (uint32_t)((drawn(d) >> 32) * n >> 32); }

/* Whether it happens, once in n draws; never where n is 0. */
static inline int one_in(draws *d, uint32_t n) { return n != 0 && below(d, n) == 0; }

#endif
