/* The events that no engine writes (document 01, 'Records'): configurations, requests, recovery. Each writer returns its record's length. */
#ifndef EVENTS_H
#define EVENTS_H

#include "../run.h"

#include <string.h>

enum { REGULAR_SIZE = GUZBYTOR_AT_BODY + 5, TRANSITIONAL_SIZE = GUZBYTOR_AT_BODY + 1, MOST_REQUEST = GUZBYTOR_AT_BODY + 1 + 255 };

static inline size_t write_frame(uint8_t *b, uint8_t kind, size_t body) {
    b[GUZBYTOR_AT_LENGTH] = (uint8_t)((GUZBYTOR_AT_BODY - GUZBYTOR_AT_VERSION + body) >> 8);
    b[GUZBYTOR_AT_LENGTH + 1] = (uint8_t)(GUZBYTOR_AT_BODY - GUZBYTOR_AT_VERSION + body);
    b[GUZBYTOR_AT_VERSION] = GUZBYTOR_VERSION;
    b[GUZBYTOR_AT_KIND] = kind;
    return GUZBYTOR_AT_BODY + body;
}

static inline size_t write_regular(uint8_t *b, uint32_t id, uint8_t set) {
    for (int i = 0; i < 4; i++) {
        b[GUZBYTOR_AT_BODY + i] = (uint8_t)(id >> (24 - 8 * i));
    }
    b[GUZBYTOR_AT_BODY + 4] = set;
    return write_frame(b, GUZBYTOR_KIND_REGULAR, 5);
}

static inline size_t write_transitional(uint8_t *b, uint8_t set) {
    b[GUZBYTOR_AT_BODY] = set;
    return write_frame(b, GUZBYTOR_KIND_TRANSITIONAL, 1);
}

static inline size_t write_request(uint8_t *b, const uint8_t *payload, uint8_t length) {
    b[GUZBYTOR_AT_BODY] = length;
    memcpy(b + GUZBYTOR_AT_BODY + 1, payload, length);
    return write_frame(b, GUZBYTOR_KIND_REQUEST, 1 + (size_t)length);
}

static inline size_t write_recovery(uint8_t *b) { return write_frame(b, GUZBYTOR_KIND_RECOVERY, 0); }

static inline size_t write_setup(uint8_t *b, uint32_t servers, uint32_t quota) {
    b[SETUP_SERVERS] = (uint8_t)servers;
    b[SETUP_QUOTA] = (uint8_t)(quota >> 8);
    b[SETUP_QUOTA + 1] = (uint8_t)quota;
    return write_frame(b, GUZBYTOR_KIND_SETUP, SETUP_LENGTH - GUZBYTOR_AT_BODY);
}

#endif
