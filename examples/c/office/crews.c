#include "crews.h"

#include "guzbytor.h"

#include <stdio.h>
#include <string.h>

enum { DISTRICT = 400000 }; /* millimetres from side to side */

crews crews_come(uint64_t seed, int fresh) {
    static const uint32_t names[] = {6, 40, 600};
    crews c = {.draws = {~seed}, .fresh = fresh};
    c.names = names[below(&c.draws, 3)];
    c.far = one_in(&c.draws, 4);
    return c;
}

/* ---- names */

/* Any bytes, always the same for one number. */
static uint8_t odd_name(uint32_t number, uint8_t *name) {
    draws d = {number};
    uint8_t length = (uint8_t)(1 + below(&d, GUZBYTOR_MOST_NAME));
    for (uint8_t i = 0; i < length; i++) {
        name[i] = (uint8_t)below(&d, 256);
    }
    return length;
}

/* One of the names that they speak of. A name counts whole, so some differ only by zeros behind them. */
static uint8_t drawn_name(crews *c, uint8_t *name) {
    uint32_t number = below(&c->draws, c->names);
    char text[GUZBYTOR_MOST_NAME + 1];
    if (number % 16 == 15) {
        return odd_name(number, name);
    }
    uint8_t length = (uint8_t)snprintf(text, sizeof text, "P%u", number % 16 == 14 ? number - 1 : number);
    memcpy(name, text, length);
    if (number % 16 == 14) {
        name[length++] = 0;
    }
    return length;
}

/* ---- operations */

static size_t put_coordinate(crews *c, uint8_t *b) {
    uint32_t bits = c->far ? (uint32_t)drawn(&c->draws) : below(&c->draws, DISTRICT) - DISTRICT / 2u;
    if (c->far && one_in(&c->draws, 8)) {
        bits = one_in(&c->draws, 2) ? 0x80000000u : 0x7FFFFFFFu;
    }
    for (int i = 0; i < 4; i++) {
        b[i] = (uint8_t)(bits >> (24 - 8 * i));
    }
    return 4;
}

static uint8_t operation(crews *c, uint8_t *payload) {
    static const uint8_t operations[] = {GUZBYTOR_SET, GUZBYTOR_SET, GUZBYTOR_MOVE, GUZBYTOR_RETIRE};
    payload[0] = operations[below(&c->draws, 4)];
    payload[1] = drawn_name(c, payload + 2);
    size_t length = 2 + (size_t)payload[1];
    if (payload[0] != GUZBYTOR_RETIRE) {
        length += put_coordinate(c, payload + length);
        length += put_coordinate(c, payload + length);
    }
    return (uint8_t)length;
}

/* An operation with one thing wrong, or any bytes. */
static uint8_t no_operation(crews *c, uint8_t *payload) {
    uint8_t length = operation(c, payload);
    switch (below(&c->draws, 6)) {
    case 0:
        payload[0] = (uint8_t)(one_in(&c->draws, 2) ? 0 : 4 + below(&c->draws, 252));
        return length;
    case 1: /* the name is too long, or none */
        payload[1] = (uint8_t)(one_in(&c->draws, 2) ? 0 : GUZBYTOR_MOST_NAME + 1 + below(&c->draws, 231));
        return length;
    case 2: /* cut short */
        return (uint8_t)below(&c->draws, length);
    case 3: /* something follows */
        payload[length] = (uint8_t)below(&c->draws, 256);
        return (uint8_t)(length + 1);
    case 4:
        return 0;
    default:
        for (uint8_t i = 0; i < GUZBYTOR_MOST_PAYLOAD; i++) {
            payload[i] = (uint8_t)below(&c->draws, 256);
        }
        return GUZBYTOR_MOST_PAYLOAD;
    }
}

/* A set of a name that no other request has. */
static uint8_t fresh_peg(crews *c, uint8_t *payload) {
    char text[GUZBYTOR_MOST_NAME + 1];
    payload[0] = GUZBYTOR_SET;
    payload[1] = (uint8_t)snprintf(text, sizeof text, "P%u", ++c->asked);
    memcpy(payload + 2, text, payload[1]);
    size_t length = 2 + (size_t)payload[1];
    length += put_coordinate(c, payload + length);
    length += put_coordinate(c, payload + length);
    return (uint8_t)length;
}

uint8_t crew_asks(crews *c, uint8_t *payload) {
    if (c->fresh) {
        return fresh_peg(c, payload);
    }
    return one_in(&c->draws, 8) ? no_operation(c, payload) : operation(c, payload);
}
