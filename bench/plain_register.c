/* The register in plain C: document 02, K2. */
#include "plain_register.h"

#include "pegs.h"

#include <stdbool.h>
#include <string.h>

enum { PLACE_SIZE = 8 };

/* ---- names */

/* Below 0, 0 or above 0, as the first name stands before the second one, is the same, or stands behind it. */
static int compare(const uint8_t *a, size_t a_length, const uint8_t *b, size_t b_length) {
    size_t both = a_length < b_length ? a_length : b_length;
    int order = both > 0 ? memcmp(a, b, both) : 0;
    return order != 0 ? order : (a_length > b_length) - (a_length < b_length);
}

/* How many pegs stand before the name; whether the next one has it. */
static size_t search(const uint8_t *pegs, const uint8_t *name, size_t length, bool *there) {
    size_t low = 0, high = peg_count(pegs);
    while (low < high) {
        size_t middle = (low + high) / 2;
        const uint8_t *slot = pegs + peg_at(middle);
        int order = compare(peg_name(slot), slot[0], name, length);
        if (order == 0) {
            *there = true;
            return middle;
        }
        if (order < 0) {
            low = middle + 1;
        } else {
            high = middle;
        }
    }
    *there = false;
    return low;
}

/* ---- the form */

static bool slot_ok(const uint8_t *slot) {
    static const uint8_t zeros[GUZBYTOR_MOST_NAME];
    size_t length = slot[0];
    return length >= 1 && length <= GUZBYTOR_MOST_NAME && memcmp(peg_name(slot) + length, zeros, GUZBYTOR_MOST_NAME - length) == 0;
}

uint32_t plain_register_check(const uint8_t *pegs, size_t pegs_length) {
    if (pegs_length < GUZBYTOR_REGISTER_LENGTH) {
        return GUZBYTOR_SHORT_BUFFER;
    }
    size_t count = peg_count(pegs);
    if (count > GUZBYTOR_MOST_PEGS) {
        return GUZBYTOR_BAD_STATE;
    }
    const uint8_t *last = NULL;
    for (size_t i = 0; i < count; i++) {
        const uint8_t *slot = pegs + peg_at(i);
        if (!slot_ok(slot) || (last != NULL && compare(peg_name(last), last[0], peg_name(slot), slot[0]) >= 0)) {
            return GUZBYTOR_BAD_STATE;
        }
        last = slot;
    }
    return 0;
}

/* ---- operations */

/* The payload is an operation: the name's length fits, and nothing follows. */
static bool is_operation(const uint8_t *payload, size_t length) {
    if (length < 2 || payload[1] < 1 || payload[1] > GUZBYTOR_MOST_NAME) {
        return false;
    }
    switch (payload[0]) {
    case GUZBYTOR_SET:
    case GUZBYTOR_MOVE:
        return length == 2 + (size_t)payload[1] + PLACE_SIZE;
    case GUZBYTOR_RETIRE:
        return length == 2 + (size_t)payload[1];
    default:
        return false;
    }
}

static void put_count(uint8_t *pegs, size_t count) {
    pegs[0] = (uint8_t)(count >> 8);
    pegs[1] = (uint8_t)count;
}

static uint32_t set(uint8_t *pegs, size_t at, const uint8_t *payload) {
    size_t count = peg_count(pegs), length = payload[1];
    if (count == GUZBYTOR_MOST_PEGS) {
        return GUZBYTOR_REGISTER_FULL;
    }
    uint8_t *slot = pegs + peg_at(at);
    memmove(slot + GUZBYTOR_REGISTER_PEG_SIZE, slot, peg_at(count) - peg_at(at));
    slot[0] = (uint8_t)length;
    memcpy(slot + GUZBYTOR_REGISTER_AT_NAME, payload + 2, length);
    memset(slot + GUZBYTOR_REGISTER_AT_NAME + length, 0, GUZBYTOR_MOST_NAME - length);
    memcpy(slot + GUZBYTOR_REGISTER_AT_PLACE, payload + 2 + length, PLACE_SIZE);
    put_count(pegs, count + 1);
    return 0;
}

static void retire(uint8_t *pegs, size_t at) {
    size_t count = peg_count(pegs);
    memmove(pegs + peg_at(at), pegs + peg_at(at + 1), peg_at(count) - peg_at(at + 1));
    put_count(pegs, count - 1);
}

uint32_t plain_operation(uint8_t *pegs, const uint8_t *payload, size_t payload_length) {
    bool there;
    if (!is_operation(payload, payload_length)) {
        return GUZBYTOR_NO_OPERATION;
    }
    size_t at = search(pegs, payload + 2, payload[1], &there);
    if (payload[0] == GUZBYTOR_SET) {
        return there ? (uint32_t)GUZBYTOR_PEG_THERE : set(pegs, at, payload);
    }
    if (!there) {
        return GUZBYTOR_PEG_NOT_THERE;
    }
    if (payload[0] == GUZBYTOR_MOVE) {
        memcpy(pegs + peg_at(at) + GUZBYTOR_REGISTER_AT_PLACE, payload + 2 + payload[1], PLACE_SIZE);
    } else {
        retire(pegs, at);
    }
    return 0;
}

uint32_t plain_register_apply(uint8_t *pegs, size_t pegs_length, const uint8_t *payload, size_t payload_length) {
    uint32_t number = plain_register_check(pegs, pegs_length);
    return number != 0 ? number : plain_operation(pegs, payload, payload_length);
}

guzbytor_register_find_answer plain_register_find(const uint8_t *pegs, size_t pegs_length, const uint8_t *name, size_t name_length) {
    guzbytor_register_find_answer a = {.number = plain_register_check(pegs, pegs_length)};
    bool there = false;
    size_t at = a.number == 0 ? search(pegs, name, name_length, &there) : 0;
    if (there) {
        const uint8_t *slot = pegs + peg_at(at);
        a = (guzbytor_register_find_answer){0, 1, (uint32_t)at, peg_easting(slot), peg_northing(slot)};
    }
    return a;
}
