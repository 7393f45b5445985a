/* Events whose cost does not go by what is used: lists of ids that lie 256 apart, so that they share the places of a table (docs/DECISIONS.md, 96),
   and gaps before red actions. The state check takes such states; by argument, not by a theorem, no allowed run has such lists, and few gaps. */
#include "costly.h"

/* Apart so far, at most 255 ids of a creator are in range. */
enum { APART = GUZBYTOR_MOST_QUOTA, MOST_APART = MOST_NUMBER / APART };

static size_t apart_count(size_t n, size_t q) { return n * (q < MOST_APART ? q : MOST_APART); }

static void put_apart(uint8_t *ids, size_t n, size_t q) {
    for (size_t k = 0; k < apart_count(n, q); k++, ids += ID_SIZE) {
        ids[ACTION_CREATOR] = (uint8_t)(k % n);
        put(ids + ACTION_INDEX, 2, (uint32_t)(APART * (k / n + 1)));
    }
}

/* The yellow list of a State's record. */
static size_t put_list_apart(uint8_t *b, size_t n, size_t q) {
    size_t length = ids_at(n) + ID_SIZE * apart_count(n, q);
    put(b + GUZBYTOR_AT_LENGTH, 2, (uint32_t)(length - GUZBYTOR_AT_VERSION));
    put(b + rest_at(n) + REST_YELLOW_COUNT, 2, (uint32_t)apart_count(n, q));
    put_apart(b + ids_at(n), n, q);
    return length;
}

/* The last State comes with such a list. */
static trial state_apart(size_t n, size_t q, size_t white) {
    trial t = COSTLY[RESEND].make(n, q, white);
    t.event_length = put_list_apart(t.event, n, q);
    return t;
}

/* The exchange ends, and all lists are such. */
static trial end_apart(size_t n, size_t q, size_t white) {
    trial t = COSTLY[END_ALIKE].make(n, q, white);
    uint8_t *b = t.state.bytes;
    for (size_t k = 0; k < n; k++) {
        put_list_apart(b + states_at(n) + k * state_slot(n, q), n, q);
    }
    put(b + AT_YELLOW_COUNT, 2, (uint32_t)apart_count(n, q));
    put_apart(b + yellow_at(n, q), n, q);
    return t;
}

/* Install with no yellow list, and every second index of each creator is red and held. */
static trial gaps(size_t n, size_t q, size_t white) {
    trial t = install(n, q, white);
    uint8_t *slot = t.state.bytes + queue_at(n, q);
    put(t.state.bytes + AT_YELLOW_COUNT, 2, 0);
    for (size_t k = 0; k < n * q; k++, slot += SLOT_SIZE) {
        put(slot + ACTION_INDEX, 2, (uint32_t)(white - q + 2 * (number(slot + ACTION_INDEX, 2) - white)));
    }
    return t;
}

const costly HOSTILE[HOSTILE_COUNT] = {{"State, ids apart", state_apart}, {"end, ids apart", end_apart}, {"Install, gaps", gaps}};
