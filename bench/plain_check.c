/* The state check in plain C: document 01, 'Returned numbers', rows 7 and 8, as K6 changed them. */
#include "layout.h"

#include <stdbool.h>

typedef struct {
    const uint8_t *b;
    size_t n, q;
} view;

static uint32_t num16(const uint8_t *b) { return (uint32_t)b[0] << 8 | b[1]; }

static uint32_t num32(const uint8_t *b) { return num16(b) << 16 | num16(b + 2); }

static bool set_ok(view s, unsigned set) { return set >> s.n == 0; }

static bool primary_ok(view s, const uint8_t *b) {
    return num32(b + LAST_INDEX) <= MOST_INDEX && num32(b + LAST_ATTEMPT) <= MOST_INDEX && set_ok(s, b[LAST_SET]);
}

/* Index, attempt and set lie in a mark as in a last primary. */
static bool mark_ok(view s, const uint8_t *b) {
    return b[MARK_STATUS] <= 1 && primary_ok(s, b + MARK_INDEX) && set_ok(s, b[MARK_BITS]);
}

/* A bit for each id; all are 0 between two calls. */
static uint8_t met[GUZBYTOR_MOST_SERVERS][(MOST_NUMBER + 1) / 8];

/* Ids, one at the front of each of `count` entries: how many come before one that is out of range or there twice. */
static size_t ids_before_bad(view s, const uint8_t *b, size_t count, size_t step) {
    for (size_t k = 0; k < count; k++, b += step) {
        size_t creator = b[ACTION_CREATOR], index = num16(b + ACTION_INDEX);
        if (creator >= s.n || index < 1 || (met[creator][index / 8] >> index % 8 & 1) != 0) {
            return k;
        }
        met[creator][index / 8] |= (uint8_t)(1u << index % 8);
    }
    return count;
}

/* In range, and none of them twice. */
static bool ids_ok(view s, const uint8_t *b, size_t count, size_t step) {
    size_t good = ids_before_bad(s, b, count, step);
    for (size_t k = 0; k < good; k++, b += step) {
        met[b[ACTION_CREATOR]][num16(b + ACTION_INDEX) / 8] = 0;
    }
    return good == count;
}

static bool payload_ok(const uint8_t *b) {
    if (b[0] > GUZBYTOR_MOST_PAYLOAD) {
        return false;
    }
    for (size_t i = 1 + (size_t)b[0]; i <= GUZBYTOR_MOST_PAYLOAD; i++) {
        if (b[i] != 0) {
            return false;
        }
    }
    return true;
}

static bool slot_ok(const uint8_t *b) {
    return num32(b + ACTION_GREEN) <= MOST_LENGTH && num32(b + ACTION_WHITE) <= MOST_LENGTH && payload_ok(b + ACTION_PAYLOAD);
}

static bool configurations_ok(view s) {
    const uint8_t *b = s.b;
    unsigned me = b[AT_ME], status = b[AT_CONFIGURATION_STATUS], regular = b[AT_CONFIGURATION_SET], transitional = b[AT_TRANSITIONAL_SET];
    if (status > 1 || b[AT_TRANSITIONAL_STATUS] > 1) {
        return false;
    }
    if (status == 0 ? num32(b + AT_CONFIGURATION_ID) != 0 || regular != 0 : !set_ok(s, regular) || (regular >> me & 1) == 0) {
        return false;
    }
    if (b[AT_TRANSITIONAL_STATUS] == 0) {
        return transitional == 0;
    }
    return set_ok(s, transitional) && (transitional >> me & 1) != 0 && (status == 0 || (transitional & ~regular) == 0);
}

static bool numbers_ok(view s) {
    const uint8_t *b = s.b;
    size_t all = s.n * s.q;
    uint32_t queue = num32(b + AT_QUEUE_COUNT);
    if (b[AT_ME] >= s.n || b[AT_STATE] > GUZBYTOR_UN || !configurations_ok(s)) {
        return false;
    }
    if ((b[AT_STATES] & ~b[AT_CONFIGURATION_SET]) != 0 || !set_ok(s, b[AT_CPCS]) || num32(b + AT_COME) > MOST_LENGTH + s.n * MOST_NUMBER) {
        return false;
    }
    if (queue > all || num32(b + AT_GREEN) > queue || num16(b + AT_OWN_COUNT) > s.q || num16(b + AT_SENT) > num16(b + AT_NUMBERED)) {
        return false;
    }
    if (num32(b + AT_ATTEMPT) > MOST_INDEX || !primary_ok(s, b + AT_LAST_INDEX)) {
        return false;
    }
    return mark_ok(s, b + AT_MARK_STATUS) && b[AT_YELLOW_STATUS] <= 1 && num16(b + AT_YELLOW_COUNT) <= all;
}

static size_t cut_of(view s, size_t creator) { return num16(s.b + cuts_at() + CUT_SIZE * creator); }

static bool first_lists_ok(view s) {
    const uint8_t *noted = s.b + noted_at(s.n);
    size_t sum = 0;
    for (size_t c = 0; c < s.n; c++) {
        if (num32(noted + NOTED_SIZE * c) > MOST_LENGTH) {
            return false;
        }
        sum += cut_of(s, c);
    }
    return sum >= num32(s.b + AT_QUEUE_COUNT) && cut_of(s, s.b[AT_ME]) + num16(s.b + AT_OWN_COUNT) == num16(s.b + AT_NUMBERED);
}

static bool own_ok(view s) {
    const uint8_t *b = s.b + own_at(s.n, s.q);
    size_t count = num16(s.b + AT_OWN_COUNT), cut = cut_of(s, s.b[AT_ME]);
    for (size_t k = 0; k < count; k++, b += SLOT_SIZE) {
        if (b[ACTION_CREATOR] != s.b[AT_ME] || num16(b + ACTION_INDEX) != cut + 1 + k || !slot_ok(b)) {
            return false;
        }
    }
    return true;
}

/* No id twice, none above its creator's cut, and at most a quota of each creator's, with the own list of the own ones. */
static bool queue_ok(view s) {
    const uint8_t *b = s.b + queue_at(s.n, s.q);
    size_t count = num32(s.b + AT_QUEUE_COUNT), held[GUZBYTOR_MOST_SERVERS] = {0};
    held[s.b[AT_ME]] = num16(s.b + AT_OWN_COUNT);
    if (!ids_ok(s, b, count, SLOT_SIZE)) {
        return false;
    }
    for (size_t k = 0; k < count; k++, b += SLOT_SIZE) {
        if (num16(b + ACTION_INDEX) > cut_of(s, b[ACTION_CREATOR]) || ++held[b[ACTION_CREATOR]] > s.q || !slot_ok(b)) {
            return false;
        }
    }
    return true;
}

static bool state_ok(view s, const uint8_t *b, size_t sender) {
    const uint8_t *rest = b + rest_at(s.n);
    size_t count = num16(rest + REST_YELLOW_COUNT), length = ids_at(s.n) - GUZBYTOR_AT_VERSION + ID_SIZE * count;
    if (count > s.n * s.q || num16(b + GUZBYTOR_AT_LENGTH) != length || b[GUZBYTOR_AT_VERSION] != GUZBYTOR_VERSION || b[GUZBYTOR_AT_KIND] != GUZBYTOR_KIND_STATE) {
        return false;
    }
    if (b[STATE_SENDER] != sender || num32(b + STATE_ID) != num32(s.b + AT_CONFIGURATION_ID)) {
        return false;
    }
    if (num32(rest + REST_GREEN) > MOST_LENGTH || num32(rest + REST_ATTEMPT) > MOST_INDEX) {
        return false;
    }
    return primary_ok(s, rest + REST_LAST_INDEX) && mark_ok(s, rest + REST_MARK_STATUS) && rest[REST_YELLOW_STATUS] <= 1 &&
           ids_ok(s, b + ids_at(s.n), count, ID_SIZE);
}

static bool states_ok(view s) {
    for (size_t k = 0; k < s.n; k++) {
        if ((s.b[AT_STATES] >> k & 1) != 0 && !state_ok(s, s.b + states_at(s.n) + k * state_slot(s.n, s.q), k)) {
            return false;
        }
    }
    return true;
}

/* How far the numbers at `place` in the collected States lie apart. */
static uint64_t spread(view s, size_t place, size_t width) {
    uint32_t low = UINT32_MAX, high = 0;
    for (size_t k = 0; k < s.n; k++) {
        if ((s.b[AT_STATES] >> k & 1) != 0) {
            const uint8_t *b = s.b + states_at(s.n) + k * state_slot(s.n, s.q) + place;
            uint32_t v = width == 4 ? num32(b) : num16(b);
            low = v < low ? v : low;
            high = v > high ? v : high;
        }
    }
    return high > low ? high - low : 0;
}

static bool mode_ok(view s) {
    unsigned mode = s.b[AT_STATE];
    if (mode == GUZBYTOR_NON_PRIM) {
        return true;
    }
    if (s.b[AT_CONFIGURATION_STATUS] != 1) {
        return false;
    }
    if (mode == GUZBYTOR_EXCHANGE_ACTIONS) {
        uint64_t planned = spread(s, rest_at(s.n) + REST_GREEN, 4);
        for (size_t c = 0; c < s.n; c++) {
            planned += spread(s, STATE_CUTS + CUT_SIZE * c, CUT_SIZE);
        }
        return (s.b[AT_CONFIGURATION_SET] & ~s.b[AT_STATES]) == 0 && num32(s.b + AT_COME) < planned;
    }
    return mode < GUZBYTOR_EXCHANGE_ACTIONS || num32(s.b + AT_LAST_INDEX) < MOST_INDEX;
}

uint32_t plain_state_check(const uint8_t *state, size_t state_size, const uint8_t *out, size_t out_size) {
    (void)out;
    if (state_size < HEADER_SIZE) {
        return 7;
    }
    view s = {state, state[AT_SERVERS], num16(state + AT_QUOTA)};
    bool sizes = GUZBYTOR_FEWEST_SERVERS <= s.n && s.n <= GUZBYTOR_MOST_SERVERS && GUZBYTOR_LEAST_QUOTA <= s.q && s.q <= GUZBYTOR_MOST_QUOTA;
    size_t n = sizes ? s.n : GUZBYTOR_FEWEST_SERVERS, q = sizes ? s.q : GUZBYTOR_LEAST_QUOTA;
    if (state_size < state_length(n, q) || out_size < out_length(n, q)) {
        return 7;
    }
    if (!sizes || state[AT_LAYOUT] != IMAGE_LAYOUT || !numbers_ok(s) || !first_lists_ok(s)) {
        return 8;
    }
    if (!ids_ok(s, state + yellow_at(n, q), num16(state + AT_YELLOW_COUNT), ID_SIZE) || !own_ok(s) || !queue_ok(s)) {
        return 8;
    }
    return states_ok(s) && mode_ok(s) ? 0 : 8;
}
