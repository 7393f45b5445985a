/* Full states, written by the layout of docs/LAYOUT.md. */
#include "layout.h"

#include <stdlib.h>

void put(uint8_t *b, size_t width, uint32_t v) {
    for (size_t i = width; i-- > 0; v >>= 8) {
        b[i] = (uint8_t)v;
    }
}

void put_action(uint8_t *b, size_t creator, size_t index, size_t told) {
    b[ACTION_CREATOR] = (uint8_t)creator;
    put(b + ACTION_INDEX, 2, (uint32_t)index);
    put(b + ACTION_GREEN, 4, (uint32_t)told);
    put(b + ACTION_WHITE, 4, (uint32_t)told);
    b[ACTION_PAYLOAD] = PAYLOAD;
    for (size_t i = 0; i < PAYLOAD; i++) {
        b[ACTION_SIZE + i] = (uint8_t)(creator + index + i);
    }
}

/* The ids of all actions that are held. */
static void put_ids(uint8_t *b, size_t n, size_t q, size_t white) {
    for (size_t creator = 0; creator < n; creator++) {
        for (size_t index = white + 1; index <= white + q; index++, b += ID_SIZE) {
            b[ACTION_CREATOR] = (uint8_t)creator;
            put(b + ACTION_INDEX, 2, (uint32_t)index);
        }
    }
}

/* The State of a server in the configuration 1: full cuts, but that server 0 misses the last action of server 1. */
static void put_state(uint8_t *b, size_t n, size_t q, size_t white, size_t sender) {
    put(b + GUZBYTOR_AT_LENGTH, 2, (uint32_t)(state_slot(n, q) - GUZBYTOR_AT_VERSION));
    b[GUZBYTOR_AT_VERSION] = GUZBYTOR_VERSION;
    b[GUZBYTOR_AT_KIND] = GUZBYTOR_KIND_STATE;
    b[STATE_SENDER] = (uint8_t)sender;
    put(b + STATE_ID, 4, 1);
    for (size_t c = 0; c < n; c++) {
        put(b + STATE_CUTS + CUT_SIZE * c, CUT_SIZE, (uint32_t)(white + (sender == 0 && c == 1 ? q - 1 : q)));
    }
    uint8_t *rest = b + rest_at(n);
    put(rest + REST_GREEN, 4, (uint32_t)(n * white));
    rest[REST_LAST_SET] = (uint8_t)((1u << n) - 1);
    rest[REST_YELLOW_STATUS] = 1;
    put(rest + REST_YELLOW_COUNT, 2, (uint32_t)(n * q));
    put_ids(b + ids_at(n), n, q, white);
}

full_state make_full_state(size_t n, size_t q, size_t white, fullness what) {
    size_t own = what == FULL_OWN ? q : 0;
    size_t held = q - own; /* of the server itself, number 0 */
    size_t actions = (n - 1) * q + held, cut = white + held;
    full_state s = {calloc(1, state_length(n, q)), state_length(n, q), out_length(n, q), 0};
    uint8_t *b = s.bytes;
    if (b == NULL) {
        abort();
    }
    uint8_t all = (uint8_t)((1u << n) - 1);
    b[AT_LAYOUT] = IMAGE_LAYOUT;
    b[AT_SERVERS] = (uint8_t)n;
    put(b + AT_QUOTA, 2, (uint32_t)q);
    b[AT_STATE] = GUZBYTOR_EXCHANGE_ACTIONS;
    b[AT_CONFIGURATION_STATUS] = 1;
    put(b + AT_CONFIGURATION_ID, 4, 1);
    b[AT_CONFIGURATION_SET] = all;
    b[AT_STATES] = all;
    put(b + AT_QUEUE_COUNT, 4, (uint32_t)actions);
    put(b + AT_GREEN, 4, (uint32_t)(actions / 2));
    put(b + AT_NUMBERED, 2, (uint32_t)(cut + own));
    put(b + AT_OWN_COUNT, 2, (uint32_t)own);
    put(b + AT_SENT, 2, (uint32_t)(cut + own / 2));
    b[AT_LAST_SET] = all;
    b[AT_YELLOW_STATUS] = 1;
    put(b + AT_YELLOW_COUNT, 2, (uint32_t)(n * q));
    for (size_t c = 0; c < n; c++) {
        put(b + cuts_at() + CUT_SIZE * c, CUT_SIZE, (uint32_t)(c == 0 ? cut : white + q));
        put(b + noted_at(n) + NOTED_SIZE * c, NOTED_SIZE, (uint32_t)(n * white));
        put_state(b + states_at(n) + c * state_slot(n, q), n, q, white, c);
    }
    put_ids(b + yellow_at(n, q), n, q, white);
    for (size_t k = 0; k < own; k++) {
        put_action(b + own_at(n, q) + SLOT_SIZE * k, 0, cut + 1 + k, n * white);
    }
    /* By index, then creator: as they come in turn. */
    uint8_t *slot = b + queue_at(n, q);
    for (size_t k = 1; k <= q; k++) {
        for (size_t c = 0; c < n; c++) {
            if (k <= (c == 0 ? held : q)) {
                put_action(slot, c, white + k, n * white);
                slot += SLOT_SIZE;
            }
        }
    }
    s.used = states_at(n) + n * state_slot(n, q) + ID_SIZE * n * q + SLOT_SIZE * (own + actions);
    return s;
}
