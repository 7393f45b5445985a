#include "made_pegs.h"

#include "plain_register.h"

#include <stdio.h>
#include <stdlib.h>
#include <string.h>

size_t put_name(uint8_t *b, names kind, size_t number) {
    char text[GUZBYTOR_MOST_NAME + 1];
    int length = snprintf(text, sizeof text, kind == SHORT_NAMES ? "P%zu" : "district 12, sheet 7%04zx", number);
    memcpy(b, text, (size_t)length);
    return (size_t)length;
}

size_t put_operation(uint8_t *b, uint8_t operation, names kind, size_t number) {
    static uint32_t bits;
    b[0] = operation;
    b[1] = (uint8_t)put_name(b + 2, kind, number);
    size_t length = 2 + (size_t)b[1];
    for (int i = 0; i < 8 && operation != GUZBYTOR_RETIRE; i++) {
        bits = bits * 1664525u + 1013904223u;
        b[length++] = (uint8_t)(bits >> 24);
    }
    return length;
}

uint8_t *make_register(names kind, size_t count) {
    uint8_t *pegs = calloc(1, GUZBYTOR_REGISTER_LENGTH), payload[MOST_OPERATION];
    if (pegs == NULL) {
        abort();
    }
    for (size_t number = 0; number < count; number++) {
        size_t length = put_operation(payload, GUZBYTOR_SET, kind, number);
        if (plain_operation(pegs, payload, length) != 0) {
            abort();
        }
    }
    return pegs;
}

size_t spread(size_t k, size_t n) { return (size_t)((k * 0x9E3779B97F4A7C15u) >> 32) % n; }
