/* A register's buffer, read: how many pegs there are, and each by its slot. */
#ifndef PEGS_H
#define PEGS_H

#include "guzbytor.h"

static inline size_t peg_count(const uint8_t *pegs) { return (size_t)pegs[0] << 8 | pegs[1]; }

/* The slot of a peg; behind the last one, of the next that is set. */
static inline size_t peg_at(size_t index) { return GUZBYTOR_REGISTER_COUNT_SIZE + GUZBYTOR_REGISTER_PEG_SIZE * index; }

/* How many bytes of the buffer are in use. */
static inline size_t pegs_used(const uint8_t *pegs) { return peg_at(peg_count(pegs)); }

/* A slot's name, of slot[0] bytes. */
static inline const uint8_t *peg_name(const uint8_t *slot) { return slot + GUZBYTOR_REGISTER_AT_NAME; }

/* Millimetres: two's complement. */
static inline int32_t coordinate(const uint8_t *b) {
    uint32_t bits = (uint32_t)b[0] << 24 | (uint32_t)b[1] << 16 | (uint32_t)b[2] << 8 | b[3];
    return bits <= INT32_MAX ? (int32_t)bits : (int32_t)(bits - 0x80000000u) + INT32_MIN;
}

static inline int32_t peg_easting(const uint8_t *slot) { return coordinate(slot + GUZBYTOR_REGISTER_AT_PLACE); }

static inline int32_t peg_northing(const uint8_t *slot) { return coordinate(slot + GUZBYTOR_REGISTER_AT_PLACE + 4); }

#endif
