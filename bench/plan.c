#include "plan.h"

#include <string.h>

/* Another payload in a slot, zeros behind it; of the length PAYLOAD it is that of put_action. */
static void put_payload(uint8_t *slot, size_t length) {
    slot[ACTION_PAYLOAD] = (uint8_t)length;
    memset(slot + ACTION_SIZE, 0, GUZBYTOR_MOST_PAYLOAD);
    for (size_t i = 0; i < length; i++) {
        slot[ACTION_SIZE + i] = (uint8_t)(slot[ACTION_CREATOR] + number(slot + ACTION_INDEX, 2) + i);
    }
}

trial resend(size_t n, size_t q, size_t white, size_t payload, size_t me) {
    size_t part = me == 0 ? 2 * n * q * (GUZBYTOR_AT_BODY + RETRANSMISSION_SIZE + ACTION_SIZE + payload) : 0;
    full_state s = make_full_state(n, q, white, FULL_QUEUE);
    trial t = begun(s, GUZBYTOR_KIND_STATE, state_slot(n, q) - GUZBYTOR_AT_BODY, GUZBYTOR_EXCHANGE_ACTIONS, part);
    uint8_t *b = t.state.bytes;
    b[AT_ME] = (uint8_t)me;
    b[AT_STATE] = GUZBYTOR_EXCHANGE_STATES;
    b[AT_STATES] = everyone(n - 1);
    put(b + AT_GREEN, 4, (uint32_t)(n * q));
    for (size_t k = 0; k < n * q; k++) {
        put_payload(b + queue_at(n, q) + SLOT_SIZE * k, payload);
    }
    uint8_t *states = b + states_at(n);
    memcpy(t.event, states + (n - 1) * state_slot(n, q), t.event_length);
    for (size_t c = 0; c < n; c++) {
        put(t.event + STATE_CUTS + CUT_SIZE * c, CUT_SIZE, (uint32_t)white);
    }
    put(states + STATE_CUTS + CUT_SIZE, CUT_SIZE, (uint32_t)(white + q));
    for (size_t k = 0; k + 1 < n; k++) {
        put(states + k * state_slot(n, q) + rest_at(n) + REST_GREEN, 4, (uint32_t)(n * (white + q)));
    }
    return t;
}
