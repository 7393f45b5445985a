/* The least that row 8 can cost: one pass over the used bytes of a state or a register, in plain C. Compiled with -O3. */
#include "layout.h"
#include "pegs.h"

static uint8_t or_of(const uint8_t *b, size_t length) {
    uint8_t all = 0;
    for (size_t i = 0; i < length; i++) {
        all |= b[i];
    }
    return all;
}

static size_t number(const uint8_t *b, size_t width) {
    size_t v = 0;
    for (size_t i = 0; i < width; i++) {
        v = v << 8 | b[i];
    }
    return v;
}

uint8_t or_of_used(const uint8_t *b) {
    size_t n = b[AT_SERVERS], q = number(b + AT_QUOTA, 2);
    uint8_t all = or_of(b, states_at(n));
    for (size_t c = 0; c < n; c++) {
        if (b[AT_STATES] >> c & 1) {
            const uint8_t *s = b + states_at(n) + c * state_slot(n, q);
            all |= or_of(s, ids_at(n) + ID_SIZE * number(s + rest_at(n) + REST_YELLOW_COUNT, 2));
        }
    }
    all |= or_of(b + yellow_at(n, q), ID_SIZE * number(b + AT_YELLOW_COUNT, 2));
    all |= or_of(b + own_at(n, q), SLOT_SIZE * number(b + AT_OWN_COUNT, 2));
    return all | or_of(b + queue_at(n, q), SLOT_SIZE * number(b + AT_QUEUE_COUNT, 4));
}

uint8_t or_of_pegs(const uint8_t *pegs) { return or_of(pegs, pegs_used(pegs)); }
