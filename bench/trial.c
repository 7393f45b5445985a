#include "trial.h"

#include <stdlib.h>

uint32_t number(const uint8_t *b, size_t width) {
    uint32_t v = 0;
    for (size_t i = 0; i < width; i++) {
        v = v << 8 | b[i];
    }
    return v;
}

uint8_t *in_memory(size_t length) {
    uint8_t *b = calloc(1, length);
    if (b == NULL) {
        abort();
    }
    return b;
}

size_t used_bytes(const uint8_t *b) {
    size_t n = b[AT_SERVERS], q = number(b + AT_QUOTA, 2);
    size_t used = states_at(n) + ID_SIZE * number(b + AT_YELLOW_COUNT, 2);
    for (size_t k = 0; k < n; k++) {
        used += b[AT_STATES] >> k & 1 ? GUZBYTOR_AT_VERSION + number(b + states_at(n) + k * state_slot(n, q), 2) : 0;
    }
    return used + SLOT_SIZE * (number(b + AT_OWN_COUNT, 2) + number(b + AT_QUEUE_COUNT, 4));
}

trial begun(full_state s, uint8_t kind, size_t body, uint8_t mode_after, size_t sent_after) {
    size_t length = GUZBYTOR_AT_BODY + body;
    trial t = {s, in_memory(length), length, mode_after, sent_after};
    put(t.event + GUZBYTOR_AT_LENGTH, 2, (uint32_t)(length - GUZBYTOR_AT_VERSION));
    t.event[GUZBYTOR_AT_VERSION] = GUZBYTOR_VERSION;
    t.event[GUZBYTOR_AT_KIND] = kind;
    return t;
}

trial install(size_t n, size_t q, size_t white) {
    trial t = begun(make_full_state(n, q, white, FULL_QUEUE), GUZBYTOR_KIND_CPC, CPC_BODY, GUZBYTOR_REG_PRIM, 0);
    uint8_t *b = t.state.bytes;
    b[AT_STATE] = GUZBYTOR_CONSTRUCT;
    b[AT_CPCS] = everyone(n - 1);
    put(b + AT_GREEN, 4, 0);
    put(b + AT_ATTEMPT, 4, 1);
    b[AT_MARK_STATUS] = 1;
    put(b + AT_MARK_ATTEMPT, 4, 1);
    b[AT_MARK_SET] = everyone(n);
    put(b + AT_YELLOW_COUNT, 2, (uint32_t)(n * q / 2));
    t.event[GUZBYTOR_AT_BODY] = (uint8_t)(n - 1);
    put(t.event + GUZBYTOR_AT_BODY + 1, 4, 1);
    return t;
}

trial telling(size_t n, size_t q, size_t white, size_t count, size_t others) {
    trial t = begun(make_full_state(n, q, white, FULL_QUEUE), GUZBYTOR_KIND_ACTION, ACTION, GUZBYTOR_REG_PRIM, 0);
    uint8_t *b = t.state.bytes;
    b[AT_STATE] = GUZBYTOR_REG_PRIM;
    put(b + AT_QUEUE_COUNT, 4, (uint32_t)(n * q - 1));
    put(b + AT_GREEN, 4, (uint32_t)(n * q - 1));
    put(b + cuts_at() + CUT_SIZE * (n - 1), CUT_SIZE, (uint32_t)(white + q - 1));
    for (size_t c = 0; c + 1 < n; c++) {
        put(b + noted_at(n) + NOTED_SIZE * c, NOTED_SIZE, (uint32_t)(n * white + others));
    }
    put_action(t.event + GUZBYTOR_AT_BODY, n - 1, white + q, n * white);
    put(t.event + GUZBYTOR_AT_BODY + ACTION_GREEN, 4, (uint32_t)(n * white + count));
    return t;
}
