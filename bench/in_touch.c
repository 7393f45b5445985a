/* What a step costs in a run in which all servers stay in touch, when each has made 100 entries and when each has made 60,000: the queue keeps to
   what is not white. Requests come in rounds, a quarter of a quota at each server, and the actions of a round reach everyone before the next one.

   usage: in_touch [DIRECTORY]: the steps are written into DIRECTORY too, for one_step.c, and their names printed alone. */
#include "guzbytor.h"
#include "timed_step.h"
#include "trials.h"

#include <stdio.h>
#include <stdlib.h>
#include <string.h>

static const struct {
    size_t n, q;
} SIZES[] = {{3, 16}, {6, 64}, {8, 256}};

/* After how many entries of each server a round's steps are kept. */
static const size_t ENTRIES[] = {100, 60000};

/* A round's steps at server 0: a request, the round's first action, and that with which all servers have told that the round before is green. */
static const char *const NAMES[] = {"request", "action", "whitening"};

enum { SIZE_COUNT = sizeof SIZES / sizeof SIZES[0], POINT_COUNT = 2, KIND_COUNT = 3, ROUNDS = 200 };

typedef struct {
    size_t n, q;
    guzbytor_lengths_answer lengths;
    uint8_t *state[GUZBYTOR_MOST_SERVERS], *out;
    uint8_t *order; /* the records of a round, in the one order in which all servers get them */
    size_t length;
} office;

static void fail(const char *what) {
    fprintf(stderr, "%s\n", what);
    exit(1);
}

/* One event at one server; what it sends goes behind the others' records. */
static void event(office *o, size_t server, const uint8_t *bytes, size_t length) {
    guzbytor_step_answer a = guzbytor_step(o->state[server], o->lengths.state, bytes, length, o->out, o->lengths.out);
    if (a.number != 0) {
        fail("an event is refused");
    }
    memcpy(o->order + o->length, o->out, a.sent);
    o->length += a.sent;
}

/* All records sent reach everyone, and so do those that are sent on them. */
static void settle(office *o) {
    for (size_t at = 0; at < o->length;) {
        size_t whole = GUZBYTOR_AT_VERSION + number(o->order + at, 2);
        for (size_t k = 0; k < o->n; k++) {
            event(o, k, o->order + at, whole);
        }
        at += whole;
    }
    o->length = 0;
}

static office met(size_t n, size_t q) {
    office o = {.n = n, .q = q, .lengths = guzbytor_lengths((uint32_t)n, (uint32_t)q)};
    o.out = in_memory(o.lengths.out);
    o.order = in_memory(n * q * (GUZBYTOR_AT_BODY + SLOT_SIZE) + n * n * state_slot(n, q));
    for (size_t k = 0; k < n; k++) {
        o.state[k] = in_memory(o.lengths.state);
        guzbytor_start(o.state[k], o.lengths.state, (uint32_t)n, (uint32_t)q, (uint32_t)k);
    }
    for (size_t k = 0; k < n; k++) {
        event(&o, k, (const uint8_t[]){0, 7, GUZBYTOR_VERSION, GUZBYTOR_KIND_REGULAR, 0, 0, 0, 1, everyone(n)}, GUZBYTOR_AT_BODY + REGULAR_BODY);
    }
    settle(&o);
    return o;
}

enum { REQUEST_LENGTH = GUZBYTOR_AT_BODY + 1 + PAYLOAD };

static const uint8_t REQUEST[REQUEST_LENGTH] = {0, REQUEST_LENGTH - GUZBYTOR_AT_VERSION, GUZBYTOR_VERSION, GUZBYTOR_KIND_REQUEST, PAYLOAD};

static trial kept(const office *o, const uint8_t *bytes, size_t length, size_t sent_after) {
    trial t = {{memcpy(in_memory(o->lengths.state), o->state[0], o->lengths.state), o->lengths.state, o->lengths.out, 0},
               memcpy(in_memory(length), bytes, length), length, GUZBYTOR_REG_PRIM, sent_after};
    t.state.used = used_bytes(t.state.bytes);
    return t;
}

/* A round; its steps at server 0 are kept where there is room for them. */
static void round_of(office *o, trial *steps) {
    size_t made = o->q / 4, record = GUZBYTOR_AT_BODY + ACTION;
    if (steps != NULL) {
        steps[0] = kept(o, REQUEST, sizeof REQUEST, record);
    }
    for (size_t k = 0; k < o->n * made; k++) {
        event(o, k / made, REQUEST, sizeof REQUEST);
    }
    if (o->length != o->n * made * record) {
        fail("a round has other actions");
    }
    for (size_t k = 0; k < o->n; k++) {
        /* The last server's first action tells what all others have told. */
        size_t tells = (o->n - 1) * made * record, taken = 0;
        if (k == 0 && steps != NULL) {
            steps[1] = kept(o, o->order, record, 0);
            taken = guzbytor_burst(o->state[0], o->lengths.state, o->order, tells, o->out, o->lengths.out).bytes;
            steps[2] = kept(o, o->order + tells, record, 0);
        }
        taken += guzbytor_burst(o->state[k], o->lengths.state, o->order + taken, o->length - taken, o->out, o->lengths.out).bytes;
        if (taken != o->length) {
            fail("an action is refused");
        }
    }
    o->length = 0;
}

static void run_in_touch(size_t n, size_t q, trial steps[POINT_COUNT][KIND_COUNT]) {
    office o = met(n, q);
    size_t made = 0;
    for (int p = 0; p < POINT_COUNT; p++) {
        for (; made < ENTRIES[p]; made += q / 4) {
            round_of(&o, NULL);
        }
        round_of(&o, steps[p]);
        made += q / 4;
    }
    guzbytor_summary_answer s = guzbytor_summary(o.state[0], o.lengths.state);
    if (s.number != 0 || s.green != n * made || s.numbered != made) {
        fail("not all entries are green");
    }
}

static void time_all(trial steps[SIZE_COUNT][POINT_COUNT][KIND_COUNT], uint8_t *state, uint8_t *out) {
    static double both[SIZE_COUNT][POINT_COUNT][KIND_COUNT], layout[SIZE_COUNT][POINT_COUNT][KIND_COUNT];
    for (int round = 0; round < ROUNDS * SIZE_COUNT; round++) {
        int i = round % SIZE_COUNT;
        size_t calls = 300000 / steps[i][0][0].state.length + 1;
        for (int k = 0; k < POINT_COUNT * KIND_COUNT; k++) {
            int p = k % POINT_COUNT, e = k / POINT_COUNT;
            keep_best(&layout[i][p][e], copied(state, steps[i][p][e].state.bytes, steps[i][p][e].state.length, calls));
            keep_best(&both[i][p][e], laid_out_and_stepped(&steps[i][p][e], state, out, calls));
        }
    }
    printf("\nns of a step at server 0, all in touch, after %zu and after %zu entries of each server\n", ENTRIES[0], ENTRIES[1]);
    printf("step        n   q   used bytes        after %6zu  after %6zu  ratio\n", ENTRIES[0], ENTRIES[1]);
    for (int k = 0; k < KIND_COUNT * SIZE_COUNT; k++) {
        int e = k / SIZE_COUNT, i = k % SIZE_COUNT;
        double low = both[i][0][e] - layout[i][0][e], high = both[i][1][e] - layout[i][1][e];
        printf("%-9s  %2zu %3zu  %6zu, %6zu      %12.0f %13.0f  %5.2f\n", NAMES[e], SIZES[i].n, SIZES[i].q, steps[i][0][e].state.used,
               steps[i][1][e].state.used, low, high, high / low);
    }
}

int main(int count, char **words) {
    static trial steps[SIZE_COUNT][POINT_COUNT][KIND_COUNT];
    uint8_t *state = in_memory(state_length(GUZBYTOR_MOST_SERVERS, GUZBYTOR_MOST_QUOTA));
    uint8_t *out = in_memory(out_length(GUZBYTOR_MOST_SERVERS, GUZBYTOR_MOST_QUOTA));
    for (int i = 0; i < SIZE_COUNT; i++) {
        run_in_touch(SIZES[i].n, SIZES[i].q, steps[i]);
        for (int k = 0; k < POINT_COUNT * KIND_COUNT; k++) {
            int p = k % POINT_COUNT, e = k / POINT_COUNT;
            try_once(NAMES[e], &steps[i][p][e], state, out);
            if (count == 2) {
                write_trial(words[1], NAMES[e], SIZES[i].n, SIZES[i].q, ENTRIES[p], &steps[i][p][e]);
            }
        }
    }
    if (count != 2) {
        time_all(steps, state, out);
    }
    return 0;
}
