#include "costly.h"

#include "plan.h"

#include <string.h>

/* The last action of all comes in Reg_prim: it goes below n q - 1 red ones. */
static trial green(size_t n, size_t q, size_t white) {
    trial t = begun(make_full_state(n, q, white, FULL_QUEUE), GUZBYTOR_KIND_ACTION, ACTION, GUZBYTOR_REG_PRIM, 0);
    uint8_t *b = t.state.bytes;
    b[AT_STATE] = GUZBYTOR_REG_PRIM;
    put(b + AT_QUEUE_COUNT, 4, (uint32_t)(n * q - 1));
    put(b + AT_GREEN, 4, 0);
    put(b + cuts_at() + CUT_SIZE * (n - 1), CUT_SIZE, (uint32_t)(white + q - 1));
    put_action(t.event + GUZBYTOR_AT_BODY, n - 1, white + q, n * white);
    return t;
}

/* The last State comes, of a server that has nothing of what is held: n q actions are resent by position, and again as red. */
static trial resend_all(size_t n, size_t q, size_t white) { return resend(n, q, white, PAYLOAD, 0); }

/* The last retransmission comes: the exchange ends, with n yellow lists of n q ids in one order, as those of one primary mostly have. */
static trial end_alike(size_t n, size_t q, size_t white) {
    full_state s = make_full_state(n, q, white, FULL_QUEUE);
    trial t = begun(s, GUZBYTOR_KIND_RETRANSMISSION, RETRANSMISSION_SIZE + ACTION, GUZBYTOR_CONSTRUCT, GUZBYTOR_AT_BODY + CPC_BODY);
    put_action(t.event + GUZBYTOR_AT_BODY + RETRANSMISSION_SIZE, 1, white + q, n * white);
    return t;
}

/* The same with all lists but the first one backwards. */
static trial end(size_t n, size_t q, size_t white) {
    trial t = end_alike(n, q, white);
    for (size_t k = 1; k < n; k++) {
        uint8_t *ids = t.state.bytes + states_at(n) + k * state_slot(n, q) + ids_at(n);
        for (size_t i = 0; i < n * q; i++) {
            memcpy(ids + ID_SIZE * i, t.state.bytes + yellow_at(n, q) + ID_SIZE * (n * q - 1 - i), ID_SIZE);
        }
    }
    return t;
}

/* A regular configuration comes in Trans_prim: a State with n q yellow ids is sent. */
static trial join(size_t n, size_t q, size_t white) {
    trial t = begun(make_full_state(n, q, white, FULL_QUEUE), GUZBYTOR_KIND_REGULAR, REGULAR_BODY, GUZBYTOR_EXCHANGE_STATES, state_slot(n, q));
    uint8_t *b = t.state.bytes;
    b[AT_STATE] = GUZBYTOR_TRANS_PRIM;
    b[AT_TRANSITIONAL_STATUS] = 1;
    b[AT_TRANSITIONAL_SET] = everyone(n);
    put(t.event + GUZBYTOR_AT_BODY, 4, 2);
    t.event[GUZBYTOR_AT_BODY + 4] = everyone(n);
    return t;
}

/* Recovery with q actions on the own list. */
static trial recover(size_t n, size_t q, size_t white) {
    trial t = begun(make_full_state(n, q, white, FULL_OWN), GUZBYTOR_KIND_RECOVERY, 0, GUZBYTOR_NON_PRIM, 0);
    t.state.bytes[AT_STATE] = GUZBYTOR_NON_PRIM;
    return t;
}

/* The last action of all comes in Un: Install, as above, and then it is yellow. */
static trial late(size_t n, size_t q, size_t white) {
    trial t = green(n, q, white);
    uint8_t *b = t.state.bytes;
    t.mode_after = GUZBYTOR_TRANS_PRIM;
    b[AT_STATE] = GUZBYTOR_UN;
    b[AT_TRANSITIONAL_STATUS] = 1;
    b[AT_TRANSITIONAL_SET] = everyone(n);
    b[AT_CPCS] = everyone(n);
    put(b + AT_YELLOW_COUNT, 2, (uint32_t)(n * q / 2));
    return t;
}

/* The first half of the queue turns white. */
static trial half_white(size_t n, size_t q, size_t white) { return telling(n, q, white, n * q / 2, n * q / 2); }

const costly COSTLY[COSTLY_COUNT] = {
    {"action green", green}, {"CPC, Install", install}, {"State, resend", resend_all}, {"retransm., end", end},        {"end, one order", end_alike},
    {"regular", join},       {"recovery", recover},     {"action in Un", late},        {"half white", half_white},
};
