/* How long a step takes for the costly events: nanoseconds per used byte of the state, against memcpy of those bytes in the same run. */
#include "costly.h"
#include "timed_step.h"

#include <stdio.h>

static const struct {
    size_t n, q;
} SIZES[] = {{2, 16}, {4, 64}, {8, 256}};

enum { SIZE_COUNT = sizeof SIZES / sizeof SIZES[0], ROUNDS = 100 };

int main(void) {
    static trial trials[COSTLY_COUNT][SIZE_COUNT];
    static double both[COSTLY_COUNT][SIZE_COUNT], layout[COSTLY_COUNT][SIZE_COUNT], copy[COSTLY_COUNT][SIZE_COUNT], first[COSTLY_COUNT];
    uint8_t *state = in_memory(state_length(GUZBYTOR_MOST_SERVERS, GUZBYTOR_MOST_QUOTA)), *out = in_memory(out_length(GUZBYTOR_MOST_SERVERS, GUZBYTOR_MOST_QUOTA));
    for (int e = 0; e < COSTLY_COUNT; e++) {
        for (int i = 0; i < SIZE_COUNT; i++) {
            trials[e][i] = COSTLY[e].make(SIZES[i].n, SIZES[i].q, 0);
            trials[e][i].state.used = used_bytes(trials[e][i].state.bytes);
            try_once(COSTLY[e].name, &trials[e][i], state, out);
        }
    }
    /* The best of several rounds for each of the three; all events and sizes take turns, so that a busy machine slows all of them. */
    for (int round = 0; round < ROUNDS; round++) {
        for (int e = 0; e < COSTLY_COUNT; e++) {
            for (int i = 0; i < SIZE_COUNT; i++) {
                const trial *t = &trials[e][i];
                size_t calls = 1000000 / t->state.used + 1;
                keep_best(&both[e][i], laid_out_and_stepped(t, state, out, calls));
                keep_best(&layout[e][i], copied(state, t->state.bytes, t->state.length, calls));
                keep_best(&copy[e][i], copied(state, t->state.bytes, t->state.used, calls));
            }
        }
    }
    printf("event           n   q   used bytes   ns a step  ns/byte  memcpy  ratio  to (2, 16)\n");
    for (int e = 0; e < COSTLY_COUNT; e++) {
        for (int i = 0; i < SIZE_COUNT; i++) {
            double used = (double)trials[e][i].state.used, ns = both[e][i] - layout[e][i];
            first[e] = i == 0 ? ns / used : first[e];
            printf("%-14s  %zu %3zu  %11zu  %10.0f  %7.3f  %6.3f  %5.1f  %10.2f\n", COSTLY[e].name, SIZES[i].n, SIZES[i].q, trials[e][i].state.used,
                   ns, ns / used, copy[e][i] / used, ns / copy[e][i], ns / used / first[e]);
        }
    }
    return 0;
}
