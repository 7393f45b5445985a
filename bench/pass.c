/* How long the state check takes against one pass over the same bytes: an OR of the used bytes (one_pass.c), in the same run. */
#include "guzbytor.h"
#include "layout.h"

#include <stdio.h>
#include <stdlib.h>
#include <string.h>
#include <time.h>

static const struct {
    size_t n, q;
} SIZES[] = {{3, 16}, {6, 256}, {8, 256}};

/* What of the state is in use, and how long the payloads are; MIXED: 0 to 48 bytes, by turns in no order. */
enum { MIXED = 49 };

static const struct {
    const char *name;
    size_t parts; /* the queue has 1 / parts of its room; 0: it is empty */
    size_t payload;
    int states, ids; /* whether every State is in, the yellow list full */
} KINDS[] = {
    {"full queue, payloads of 0 ", 1, 0, 0, 0},     {"full queue, payloads of 12", 1, 12, 0, 0}, {"full queue, payloads of 48", 1, 48, 0, 0},
    {"half queue, payloads of 0 ", 2, 0, 0, 0},     {"half queue, payloads of 12", 2, 12, 0, 0}, {"half queue, payloads of 48", 2, 48, 0, 0},
    {"full queue, mixed payloads", 1, MIXED, 0, 0}, {"yellow ids only           ", 0, 0, 0, 1},  {"States only               ", 0, 0, 1, 0},
};

enum { SIZE_COUNT = sizeof SIZES / sizeof SIZES[0], KIND_COUNT = sizeof KINDS / sizeof KINDS[0], ROUNDS = 300 };

static double seconds(void) {
    struct timespec t;
    clock_gettime(CLOCK_MONOTONIC, &t);
    return (double)t.tv_sec + 1e-9 * (double)t.tv_nsec;
}

/* A full state without what the kind leaves out: the queue's actions of the lowest indexes stand first. */
static full_state made(size_t n, size_t q, size_t kind) {
    full_state s = make_full_state(n, q, 0, FULL_QUEUE);
    size_t cut = KINDS[kind].parts == 0 ? 0 : q / KINDS[kind].parts, actions = n * cut;
    uint8_t *b = s.bytes;
    if (!KINDS[kind].states) {
        b[AT_STATE] = GUZBYTOR_REG_PRIM;
        b[AT_STATES] = 0;
    }
    if (!KINDS[kind].ids) {
        b[AT_YELLOW_STATUS] = 0;
        put(b + AT_YELLOW_COUNT, 2, 0);
    }
    put(b + AT_QUEUE_COUNT, 4, (uint32_t)actions);
    put(b + AT_GREEN, 4, (uint32_t)(actions / 2));
    put(b + AT_NUMBERED, 2, (uint32_t)cut);
    put(b + AT_SENT, 2, (uint32_t)cut);
    for (size_t c = 0; c < n; c++) {
        put(b + cuts_at() + CUT_SIZE * c, CUT_SIZE, (uint32_t)cut);
    }
    uint32_t random = 1;
    for (size_t k = 0; k < actions; k++) {
        uint8_t *slot = b + queue_at(n, q) + SLOT_SIZE * k;
        random = random * 1664525u + 1013904223u;
        size_t m = KINDS[kind].payload == MIXED ? (random >> 16) % (GUZBYTOR_MOST_PAYLOAD + 1) : KINDS[kind].payload;
        slot[ACTION_PAYLOAD] = (uint8_t)m;
        memset(slot + ACTION_SIZE, 0, GUZBYTOR_MOST_PAYLOAD);
        memset(slot + ACTION_SIZE, 7, m);
    }
    s.used = states_at(n) + SLOT_SIZE * actions + (KINDS[kind].ids ? ID_SIZE * n * q : 0) + (KINDS[kind].states ? n * state_slot(n, q) : 0);
    return s;
}

/* Nanoseconds of one check. */
static double timed_check(const full_state *s, const uint8_t *out, size_t calls) {
    double from = seconds();
    for (size_t i = 0; i < calls; i++) {
        if (guzbytor_state_check(s->bytes, s->length, out, s->out_length) != 0) {
            fprintf(stderr, "a well-formed state is refused\n");
            exit(1);
        }
    }
    return 1e9 * (seconds() - from) / (double)calls;
}

/* Nanoseconds of one pass. */
static double timed_pass(const full_state *s, size_t calls) {
    double from = seconds();
    for (size_t i = 0; i < calls; i++) {
        if (or_of_used(s->bytes) == 0) {
            exit(1);
        }
    }
    return 1e9 * (seconds() - from) / (double)calls;
}

int main(void) {
    static double check[KIND_COUNT][SIZE_COUNT], pass[KIND_COUNT][SIZE_COUNT];
    static full_state states[KIND_COUNT][SIZE_COUNT];
    uint8_t *out = calloc(1, out_length(GUZBYTOR_MOST_SERVERS, GUZBYTOR_MOST_QUOTA));
    if (out == NULL) {
        return 1;
    }
    for (size_t k = 0; k < KIND_COUNT; k++) {
        for (size_t i = 0; i < SIZE_COUNT; i++) {
            states[k][i] = made(SIZES[i].n, SIZES[i].q, k);
        }
    }
    /* The best of several rounds, in which all take turns, so that a busy machine slows all of them. */
    for (int round = 0; round < ROUNDS; round++) {
        for (size_t k = 0; k < KIND_COUNT; k++) {
            for (size_t i = 0; i < SIZE_COUNT; i++) {
                const full_state *s = &states[k][i];
                size_t calls = 1000000 / s->used + 1;
                double c = timed_check(s, out, calls), p = timed_pass(s, calls);
                check[k][i] = round == 0 || c < check[k][i] ? c : check[k][i];
                pass[k][i] = round == 0 || p < pass[k][i] ? p : pass[k][i];
            }
        }
    }
    printf("\nstate                       n   q   used bytes   check ns    pass ns  ratio\n");
    for (size_t k = 0; k < KIND_COUNT; k++) {
        for (size_t i = 0; i < SIZE_COUNT; i++) {
            double c = check[k][i], p = pass[k][i];
            printf("%s  %zu %3zu  %11zu  %9.0f  %9.0f  %5.2f\n", KINDS[k].name, SIZES[i].n, SIZES[i].q, states[k][i].used, c, p, c / p);
        }
    }
    return 0;
}
