/* Pegs in the plane, in plain C: document 02, K5. Squares are of 128 bits. */
#include "plain_queries.h"

#include "pegs.h"
#include "plain_register.h"

#include <stdbool.h>
#include <string.h>

typedef unsigned __int128 square;

static square squared(int64_t a, int64_t b) { return (square)((__int128)(a - b) * (a - b)); }

static square distance(const uint8_t *slot, int32_t easting, int32_t northing) {
    return squared(peg_easting(slot), easting) + squared(peg_northing(slot), northing);
}

static uint32_t check(const uint8_t *pegs, size_t pegs_length, size_t answer_length) {
    return answer_length < GUZBYTOR_REGISTER_LENGTH ? (uint32_t)GUZBYTOR_SHORT_BUFFER : plain_register_check(pegs, pegs_length);
}

static void put(uint8_t *answer, size_t *found, const uint8_t *slot) { memcpy(answer + peg_at((*found)++), slot, GUZBYTOR_REGISTER_PEG_SIZE); }

static void put_count(uint8_t *answer, size_t found) {
    answer[0] = (uint8_t)(found >> 8);
    answer[1] = (uint8_t)found;
}

uint32_t plain_register_rectangle(const uint8_t *pegs, size_t pegs_length, int32_t west, int32_t south, int32_t east, int32_t north, uint8_t *answer,
                                  size_t answer_length) {
    uint32_t number = check(pegs, pegs_length, answer_length);
    if (number != 0) {
        return number;
    }
    if (west > east || south > north) {
        return GUZBYTOR_BAD_RECTANGLE;
    }
    size_t found = 0;
    for (size_t i = 0; i < peg_count(pegs); i++) {
        const uint8_t *slot = pegs + peg_at(i);
        int32_t e = peg_easting(slot), n = peg_northing(slot);
        if (west <= e && e <= east && south <= n && n <= north) {
            put(answer, &found, slot);
        }
    }
    put_count(answer, found);
    return 0;
}

uint32_t plain_register_radius(const uint8_t *pegs, size_t pegs_length, int32_t easting, int32_t northing, uint32_t radius, uint8_t *answer,
                               size_t answer_length) {
    uint32_t number = check(pegs, pegs_length, answer_length);
    if (number != 0) {
        return number;
    }
    size_t found = 0;
    for (size_t i = 0; i < peg_count(pegs); i++) {
        const uint8_t *slot = pegs + peg_at(i);
        if (distance(slot, easting, northing) <= (square)radius * radius) {
            put(answer, &found, slot);
        }
    }
    put_count(answer, found);
    return 0;
}

guzbytor_register_find_answer plain_register_nearest(const uint8_t *pegs, size_t pegs_length, int32_t easting, int32_t northing) {
    guzbytor_register_find_answer a = {.number = plain_register_check(pegs, pegs_length)};
    square least = 0;
    for (size_t i = 0; a.number == 0 && i < peg_count(pegs); i++) {
        const uint8_t *slot = pegs + peg_at(i);
        square d = distance(slot, easting, northing);
        if (i == 0 || d < least) {
            least = d;
            a = (guzbytor_register_find_answer){0, 1, (uint32_t)i, peg_easting(slot), peg_northing(slot)};
        }
    }
    return a;
}
