/* Registers to measure with: so many pegs, with short names or with long ones that begin alike. */
#ifndef MADE_PEGS_H
#define MADE_PEGS_H

#include "pegs.h"

typedef enum { SHORT_NAMES, LONG_NAMES } names;

enum { MOST_OPERATION = 2 + GUZBYTOR_MOST_NAME + 8 };

/* The name of a peg by its number; its length. */
size_t put_name(uint8_t *b, names kind, size_t number);

/* An operation on that peg, with places that differ; its length. */
size_t put_operation(uint8_t *b, uint8_t operation, names kind, size_t number);

/* A register of the pegs with the numbers 0 to count - 1. */
uint8_t *make_register(names kind, size_t count);

/* A number below n: the k-th of a row of such numbers, always the same. */
size_t spread(size_t k, size_t n);

#endif
