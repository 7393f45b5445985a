#include "office.h"

#include <string.h>

void note_came(office *o, const event *e) {
    uint32_t *came = o->depots[e->server].came;
    uint8_t kind = e->bytes[GUZBYTOR_AT_KIND];
    if (kind == GUZBYTOR_KIND_REGULAR || kind == GUZBYTOR_KIND_RECOVERY) {
        memset(came, 0, sizeof o->depots[e->server].came);
    }
    came[kind]++;
}

void test_meeting(const office *o, uint8_t k, guzbytor_summary_answer a) {
    const uint32_t *came = o->depots[k].came;
    int resends = a.state == GUZBYTOR_EXCHANGE_ACTIONS, exchanges = resends || a.state == GUZBYTOR_EXCHANGE_STATES;
    int attempts = a.state == GUZBYTOR_CONSTRUCT || a.state == GUZBYTOR_NO || a.state == GUZBYTOR_UN;
    if (a.states_in != (exchanges ? came[GUZBYTOR_KIND_STATE] : 0) || a.resent_in != (resends ? came[GUZBYTOR_KIND_RETRANSMISSION] : 0) ||
        (a.resent_in < a.resent_planned) != resends || a.cpcs_in != (attempts ? came[GUZBYTOR_KIND_CPC] : 0)) {
        wrong(o, "depot %u: in state %u, %u States, %u of %u resent and %u CPCs, and %u, %u and %u have come", k, a.state, a.states_in, a.resent_in,
              a.resent_planned, a.cpcs_in, came[GUZBYTOR_KIND_STATE], came[GUZBYTOR_KIND_RETRANSMISSION], came[GUZBYTOR_KIND_CPC]);
    }
}

static uint32_t members(uint32_t set) {
    uint32_t count = 0;
    for (; set != 0; set &= set - 1) {
        count++;
    }
    return count;
}

/* Whether the depot is in a meeting, which is printed. */
static int waits(const guzbytor_summary_answer *a) {
    uint32_t all = members(a->configuration_set);
    switch (a->state) {
    case GUZBYTOR_EXCHANGE_STATES:
        printf("depot %u waits in Exchange_states: %u of %u States\n", a->me, a->states_in, all);
        return 1;
    case GUZBYTOR_EXCHANGE_ACTIONS:
        printf("depot %u waits in Exchange_actions: %u of %u States, %u of %u resent, %u of %u CPCs\n", a->me, a->states_in, all, a->resent_in,
               a->resent_planned, a->cpcs_in, all);
        return 1;
    case GUZBYTOR_CONSTRUCT:
        printf("depot %u waits in Construct: %u of %u CPCs\n", a->me, a->cpcs_in, all);
        return 1;
    default:
        return 0;
    }
}

uint32_t depots_wait(const office *o) {
    uint32_t count = 0;
    for (uint8_t k = 0; k < o->servers; k++) {
        if (o->depots[k].up) {
            guzbytor_summary_answer a = depot_summary(o, k);
            count += (uint32_t)waits(&a);
        }
    }
    return count;
}
