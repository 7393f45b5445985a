#include "timed_step.h"

#include "guzbytor.h"

#include <stdio.h>
#include <stdlib.h>
#include <string.h>
#include <time.h>

double now_ns(void) {
    struct timespec t;
    clock_gettime(CLOCK_MONOTONIC, &t);
    return 1e9 * (double)t.tv_sec + (double)t.tv_nsec;
}

static guzbytor_step_answer stepped(const trial *t, uint8_t *state, uint8_t *out) {
    return guzbytor_step(state, t->state.length, t->event, t->event_length, out, t->state.out_length);
}

void try_once(const char *name, const trial *t, uint8_t *state, uint8_t *out) {
    memcpy(state, t->state.bytes, t->state.length);
    guzbytor_step_answer a = stepped(t, state, out);
    if (a.number != 0 || a.sent != t->sent_after || state[AT_STATE] != t->mode_after) {
        fprintf(stderr, "%s: number %u, %u bytes sent, state %u\n", name, a.number, a.sent, state[AT_STATE]);
        exit(1);
    }
}

double copied(uint8_t *to, const uint8_t *from, size_t length, size_t calls) {
    double start = now_ns();
    for (size_t i = 0; i < calls; i++) {
        memcpy(to, from, length);
        __asm__ volatile("" : : "r"(to) : "memory");
    }
    return (now_ns() - start) / (double)calls;
}

double laid_out_and_stepped(const trial *t, uint8_t *state, uint8_t *out, size_t calls) {
    double start = now_ns();
    for (size_t i = 0; i < calls; i++) {
        memcpy(state, t->state.bytes, t->state.length);
        stepped(t, state, out);
    }
    return (now_ns() - start) / (double)calls;
}

void keep_best(double *best, double now) {
    if (*best == 0 || now < *best) {
        *best = now;
    }
}
