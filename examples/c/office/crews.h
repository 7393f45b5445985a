/* What crews ask, by the seed: operations on pegs, some that the register refuses, and payloads that are no operation. */
#ifndef CREWS_H
#define CREWS_H

#include "draws.h"

#include <stddef.h>

/* Draws of their own, so that what is asked leaves the course of a run as it is. */
typedef struct {
    draws draws;
    uint32_t names; /* of pegs that they speak of: the fewer, the more is refused */
    int far;        /* coordinates of the whole range, and not of one district */
    int fresh;      /* every request sets a peg of a name of its own .. */
    uint32_t asked; /* .. and so many have */
} crews;

crews crews_come(uint64_t seed, int fresh);

/* A payload, of GUZBYTOR_MOST_PAYLOAD bytes at most; its length. */
uint8_t crew_asks(crews *c, uint8_t *payload);

#endif
