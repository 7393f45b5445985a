/* What white entries cost. The costly events at states that hold as many actions, of the indexes behind 100 and behind 60,000: a step's time goes by
   what is held alone. And an action that turns few or many entries white, less the same one that turns none, against memmove of the bytes moved. */
#include "costly.h"
#include "guzbytor.h"
#include "timed_step.h"

#include <stdio.h>
#include <stdlib.h>
#include <string.h>

static const struct {
    size_t n, q;
} SIZES[] = {{2, 16}, {4, 64}, {8, 256}};

/* How many actions of each creator are white. */
static const size_t WHITES[] = {100, 60000};

enum { SIZE_COUNT = sizeof SIZES / sizeof SIZES[0], WHITE_COUNT = 2, PART_COUNT = 4, ROUNDS = 100 };

static uint8_t *state, *out;

static void fail(const char *what) {
    fprintf(stderr, "%s\n", what);
    exit(1);
}

/* ---- indexes */

/* The step leaves a well-formed state, and a header as with lower indexes, but for the numbers of own requests. */
static void check_after(const char *name, const full_state *s, uint8_t *header) {
    if (guzbytor_state_check(state, s->length, out, s->out_length) != 0 || plain_state_check(state, s->length, out, s->out_length) != 0) {
        fail(name);
    }
    put(state + AT_NUMBERED, 2, 0);
    put(state + AT_SENT, 2, 0);
    if (header[AT_LAYOUT] != 0 && memcmp(header, state, HEADER_SIZE) != 0) {
        fail(name);
    }
    memcpy(header, state, HEADER_SIZE);
}

static void time_indexes(void) {
    static trial trials[COSTLY_COUNT][SIZE_COUNT][WHITE_COUNT];
    static double both[COSTLY_COUNT][SIZE_COUNT][WHITE_COUNT], layout[COSTLY_COUNT][SIZE_COUNT][WHITE_COUNT];
    for (int k = 0; k < COSTLY_COUNT * SIZE_COUNT; k++) {
        int e = k / SIZE_COUNT, i = k % SIZE_COUNT;
        uint8_t header[HEADER_SIZE] = {0};
        for (int w = 0; w < WHITE_COUNT; w++) {
            trials[e][i][w] = COSTLY[e].make(SIZES[i].n, SIZES[i].q, WHITES[w]);
            try_once(COSTLY[e].name, &trials[e][i][w], state, out);
            check_after(COSTLY[e].name, &trials[e][i][w].state, header);
        }
    }
    /* The best of several rounds; all take turns, so that a busy machine slows all of them. */
    for (int round = 0; round < ROUNDS * SIZE_COUNT; round++) {
        int i = round % SIZE_COUNT;
        size_t calls = 300000 / trials[0][i][0].state.length + 1;
        for (int k = 0; k < COSTLY_COUNT * WHITE_COUNT; k++) {
            int e = k / WHITE_COUNT, w = k % WHITE_COUNT;
            keep_best(&layout[e][i][w], copied(state, trials[e][i][w].state.bytes, trials[e][i][w].state.length, calls));
            keep_best(&both[e][i][w], laid_out_and_stepped(&trials[e][i][w], state, out, calls));
        }
    }
    printf("\nns of a step where %zu and where %zu actions of each creator are white, as many being held\n", WHITES[0], WHITES[1]);
    printf("event           n   q   at %6zu  at %6zu  ratio\n", WHITES[0], WHITES[1]);
    for (int k = 0; k < COSTLY_COUNT * SIZE_COUNT; k++) {
        int e = k / SIZE_COUNT, i = k % SIZE_COUNT;
        double low = both[e][i][0] - layout[e][i][0], high = both[e][i][1] - layout[e][i][1];
        printf("%-14s  %zu %3zu  %10.0f %10.0f  %5.2f\n", COSTLY[e].name, SIZES[i].n, SIZES[i].q, low, high, high / low);
    }
}

/* ---- the move */

/* How many of n q actions turn white: one, a quarter, half, three quarters. */
static size_t whitened(size_t part, size_t n, size_t q) { return part == 0 ? 1 : n * q * part / PART_COUNT; }

/* In plain C: the first `count` slots of the queue leave it, and what was there stays behind the others. */
static void plain_whiten(uint8_t *b, size_t n, size_t q, size_t count) {
    uint8_t *queue = b + queue_at(n, q);
    size_t held = number(b + AT_QUEUE_COUNT, 4);
    memmove(queue, queue + SLOT_SIZE * count, SLOT_SIZE * (held - count));
    put(b + AT_QUEUE_COUNT, 4, (uint32_t)(held - count));
    put(b + AT_GREEN, 4, (uint32_t)(number(b + AT_GREEN, 4) - count));
}

/* The step that turns none white and plain C behind it leave the counts and the queue that the step alone leaves. */
static void try_move(const trial *none, const trial *some, size_t n, size_t q, size_t count) {
    static uint8_t plain[200000];
    try_once("no move", none, state, out);
    plain_whiten(state, n, q, count);
    memcpy(plain, state, none->state.length);
    try_once("move", some, state, out);
    if (memcmp(plain, state, cuts_at()) != 0 || memcmp(plain + queue_at(n, q), state + queue_at(n, q), SLOT_SIZE * n * q) != 0) {
        fail("plain C whitens otherwise");
    }
}

static double moved(uint8_t *to, const uint8_t *from, size_t length, size_t calls) {
    double start = now_ns();
    for (size_t i = 0; i < calls; i++) {
        memmove(to, from, length);
        __asm__ volatile("" : : "r"(to) : "memory");
    }
    return (now_ns() - start) / (double)calls;
}

static void time_moves(void) {
    static trial none[SIZE_COUNT][PART_COUNT], some[SIZE_COUNT][PART_COUNT];
    static double no_move[SIZE_COUNT][PART_COUNT], move[SIZE_COUNT][PART_COUNT], plain[SIZE_COUNT][PART_COUNT];
    static double layout[SIZE_COUNT][PART_COUNT][2];
    for (int i = 0; i < SIZE_COUNT; i++) {
        size_t n = SIZES[i].n, q = SIZES[i].q;
        for (size_t p = 0; p < PART_COUNT; p++) {
            size_t count = whitened(p, n, q);
            none[i][p] = telling(n, q, WHITES[0], count, 0);
            some[i][p] = telling(n, q, WHITES[0], count, count);
            try_move(&none[i][p], &some[i][p], n, q, count);
        }
    }
    for (int round = 0; round < ROUNDS * SIZE_COUNT; round++) {
        int i = round % SIZE_COUNT;
        size_t n = SIZES[i].n, q = SIZES[i].q, calls = 300000 / none[i][0].state.length + 1;
        for (size_t p = 0; p < PART_COUNT; p++) {
            size_t count = whitened(p, n, q);
            uint8_t *queue = state + queue_at(n, q);
            keep_best(&layout[i][p][0], copied(state, none[i][p].state.bytes, none[i][p].state.length, calls));
            keep_best(&layout[i][p][1], copied(state, some[i][p].state.bytes, some[i][p].state.length, calls));
            keep_best(&no_move[i][p], laid_out_and_stepped(&none[i][p], state, out, calls));
            keep_best(&move[i][p], laid_out_and_stepped(&some[i][p], state, out, calls));
            keep_best(&plain[i][p], moved(queue, queue + SLOT_SIZE * count, SLOT_SIZE * (n * q - count), calls));
        }
    }
    printf("\nns of an action that turns entries white; less the same that turns none, and memmove of the bytes that move\n");
    printf("n   q  white  bytes moved       step  without       move  ns/byte  memmove  ratio  step's ratio\n");
    for (int k = 0; k < SIZE_COUNT * PART_COUNT; k++) {
        int i = k / PART_COUNT, p = k % PART_COUNT;
        size_t n = SIZES[i].n, q = SIZES[i].q, count = whitened((size_t)p, n, q), bytes = SLOT_SIZE * (n * q - count);
        double without = no_move[i][p] - layout[i][p][0], step = move[i][p] - layout[i][p][1], ns = step - without;
        printf("%zu %3zu  %5zu  %11zu  %9.0f  %7.0f  %9.0f  %7.3f  %7.0f  %5.1f  %12.2f\n", n, q, count, bytes, step, without, ns,
               ns / (double)bytes, plain[i][p], ns / plain[i][p], step / without);
    }
}

int main(void) {
    state = in_memory(state_length(GUZBYTOR_MOST_SERVERS, GUZBYTOR_MOST_QUOTA));
    out = in_memory(out_length(GUZBYTOR_MOST_SERVERS, GUZBYTOR_MOST_QUOTA));
    time_indexes();
    time_moves();
    return 0;
}
