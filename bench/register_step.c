/* How long an event takes with the register beside the state, against the step alone and against the step with the same register in plain C, in the
   same run; and against the step with an exported call for each action that turned green, which checks the register each time. */
#include "made_pegs.h"
#include "plain_register.h"
#include "trial.h"

#include <stdio.h>
#include <stdlib.h>
#include <string.h>
#include <time.h>

enum { N = 8, Q = 256, ROW = 32, PEGS = GUZBYTOR_REGISTER_LENGTH, ROUNDS = 60 };

static const size_t SIZES[] = {16, 256, 1024, 4096};

/* The step alone; with the register; with plain C behind it; with a call for each action behind it. */
typedef enum { STEP, JOINT, PLAIN, ONE_BY_ONE } way;

enum { SIZE_COUNT = sizeof SIZES / sizeof SIZES[0], WAY_COUNT = 4 };

static double seconds(void) {
    struct timespec t;
    clock_gettime(CLOCK_MONOTONIC, &t);
    return (double)t.tv_sec + 1e-9 * (double)t.tv_nsec;
}

static void fail(const char *what) {
    fprintf(stderr, "%s\n", what);
    exit(1);
}

/* ---- events */

/* The payload of the k-th action: a move, a retire, a set of what was retired, and no operation, in turn, on pegs that are there. */
static void put_payload(uint8_t *action, size_t k, size_t pegs) {
    static const uint8_t operations[] = {GUZBYTOR_MOVE, GUZBYTOR_RETIRE, GUZBYTOR_SET, 0};
    uint8_t *length = action + ACTION_PAYLOAD, *payload = action + ACTION_SIZE;
    memset(payload, 0, GUZBYTOR_MOST_PAYLOAD);
    *length = (uint8_t)put_operation(payload, operations[k % 4], SHORT_NAMES, spread(k / 4, pegs));
}

/* The last CPC comes, and n q actions turn green: their ids in order, those on the yellow list first. */
static trial many(size_t pegs) {
    trial t = install(N, Q, 0);
    uint8_t *slot = t.state.bytes + queue_at(N, Q);
    for (size_t k = 0; k < N * Q; k++, slot += SLOT_SIZE) {
        put_payload(slot, slot[ACTION_CREATOR] * (size_t)Q + number(slot + ACTION_INDEX, 2) - 1, pegs);
    }
    return t;
}

/* In Reg_prim the last actions of the last server come, all others being there: `count` events, one behind another. */
static trial some(size_t pegs, size_t count) {
    trial t = begun(make_full_state(N, Q, 0, FULL_QUEUE), GUZBYTOR_KIND_ACTION, count * (GUZBYTOR_AT_BODY + SLOT_SIZE), GUZBYTOR_REG_PRIM, 0);
    uint8_t *b = t.state.bytes, *from = b + queue_at(N, Q), *to = from, *event = t.event;
    b[AT_STATE] = GUZBYTOR_REG_PRIM;
    put(b + AT_QUEUE_COUNT, 4, (uint32_t)(N * Q - count));
    put(b + AT_GREEN, 4, (uint32_t)(N * Q - count));
    put(b + cuts_at() + CUT_SIZE * (N - 1), CUT_SIZE, (uint32_t)(Q - count));
    for (size_t k = 0; k < N * Q; k++, from += SLOT_SIZE) {
        if (from[ACTION_CREATOR] != N - 1 || number(from + ACTION_INDEX, 2) <= Q - count) {
            memmove(to, from, SLOT_SIZE);
            to += SLOT_SIZE;
        }
    }
    for (size_t k = 0; k < count; k++) {
        uint8_t action[SLOT_SIZE];
        put_action(action, N - 1, Q - count + 1 + k, 0);
        put_payload(action, k, pegs);
        size_t length = ACTION_SIZE + (size_t)action[ACTION_PAYLOAD];
        put(event + GUZBYTOR_AT_LENGTH, 2, (uint32_t)(GUZBYTOR_AT_BODY - GUZBYTOR_AT_VERSION + length));
        event[GUZBYTOR_AT_VERSION] = GUZBYTOR_VERSION;
        event[GUZBYTOR_AT_KIND] = GUZBYTOR_KIND_ACTION;
        memcpy(event + GUZBYTOR_AT_BODY, action, length);
        event += GUZBYTOR_AT_BODY + length;
    }
    t.event_length = (size_t)(event - t.event);
    return t;
}

static trial one(size_t pegs) { return some(pegs, 1); }

static trial row(size_t pegs) { return some(pegs, ROW); }

static const struct {
    const char *name;
    trial (*make)(size_t pegs);
    size_t greened;
    int burst;
} EVENTS[] = {{"action", one, 1, 0}, {"burst of 32", row, ROW, 1}, {"Install", many, N *Q, 0}};

enum { EVENT_COUNT = sizeof EVENTS / sizeof EVENTS[0] };

/* ---- one event, by each way */

static struct {
    uint8_t *state, *pegs, *out;
} lent;

/* The step or burst alone; 0 where all is taken. */
static int stepped(const trial *t, int burst) {
    size_t length = t->state.length, out = t->state.out_length;
    if (burst) {
        guzbytor_burst_answer a = guzbytor_burst(lent.state, length, t->event, t->event_length, lent.out, out);
        return a.number != 0 || a.bytes != t->event_length;
    }
    return guzbytor_step(lent.state, length, t->event, t->event_length, lent.out, out).number != 0;
}

/* What the event turned green is applied, action by action, behind the check of the register where it is not part of each call. */
static uint32_t refused_behind(size_t green, size_t greened, way w) {
    const uint8_t *slot = lent.state + queue_at(N, Q) + SLOT_SIZE * green;
    uint32_t refused = 0;
    for (size_t k = 0; k < greened; k++, slot += SLOT_SIZE) {
        const uint8_t *payload = slot + ACTION_SIZE;
        size_t length = slot[ACTION_PAYLOAD];
        refused += (w == PLAIN ? plain_operation(lent.pegs, payload, length) : guzbytor_register_apply(lent.pegs, PEGS, payload, length)) != 0;
    }
    return refused;
}

static uint32_t joint(const trial *t, int burst, size_t greened) {
    if (burst) {
        guzbytor_register_burst_answer a =
            guzbytor_register_burst(lent.state, t->state.length, lent.pegs, PEGS, t->event, t->event_length, lent.out, t->state.out_length);
        return a.number != 0 || a.greened != greened || a.bytes != t->event_length ? UINT32_MAX : a.refused;
    }
    guzbytor_register_step_answer a =
        guzbytor_register_step(lent.state, t->state.length, lent.pegs, PEGS, t->event, t->event_length, lent.out, t->state.out_length);
    return a.number != 0 || a.greened != greened ? UINT32_MAX : a.refused;
}

/* One event over state and register as they lie there; how many operations are refused, a quarter of them all. */
static uint32_t taken(int e, const trial *t, way w) {
    size_t green = number(lent.state + AT_GREEN, 4);
    if (w == JOINT) {
        return joint(t, EVENTS[e].burst, EVENTS[e].greened);
    }
    if ((w == PLAIN && plain_register_check(lent.pegs, PEGS) != 0) || stepped(t, EVENTS[e].burst)) {
        return UINT32_MAX;
    }
    return w == STEP ? (uint32_t)EVENTS[e].greened / 4 : refused_behind(green, EVENTS[e].greened, w);
}

static void lay_out(const trial *t, const uint8_t *pegs) {
    memcpy(lent.state, t->state.bytes, t->state.length);
    memcpy(lent.pegs, pegs, pegs_used(pegs));
    __asm__ volatile("" : : "r"(lent.state), "r"(lent.pegs) : "memory");
}

/* All ways but the step alone leave the same register. */
static void try_once(int e, const trial *t, const uint8_t *pegs) {
    static uint8_t left[PEGS];
    for (way w = JOINT; w <= ONE_BY_ONE; w++) {
        lay_out(t, pegs);
        if (taken(e, t, w) != EVENTS[e].greened / 4 || lent.state[AT_STATE] != t->mode_after) {
            fail(EVENTS[e].name);
        }
        if (w != JOINT && memcmp(left, lent.pegs, pegs_used(left)) != 0) {
            fail("another register is left");
        }
        memcpy(left, lent.pegs, pegs_used(lent.pegs));
    }
}

/* ---- times */

/* Nanoseconds of laying out, and one event where there is one. */
static double timed(int e, const trial *t, const uint8_t *pegs, int with, way w) {
    size_t calls = EVENTS[e].greened == 1 ? 8 : 2;
    double from = seconds();
    for (size_t i = 0; i < calls; i++) {
        lay_out(t, pegs);
        if (with && taken(e, t, w) != EVENTS[e].greened / 4) {
            fail(EVENTS[e].name);
        }
    }
    return 1e9 * (seconds() - from) / (double)calls;
}

static void keep_best(double *best, double ns) {
    if (*best == 0 || ns < *best) {
        *best = ns;
    }
}

/* What the register adds is not told from the step where it is less than a fiftieth of it. */
static void print_line(const char *name, size_t pegs, const double *ns, double layout) {
    double step = ns[STEP] - layout, with = ns[JOINT] - layout, plain = ns[PLAIN] - layout, one_by_one = ns[ONE_BY_ONE] - layout;
    printf("%-11s  %4zu  %9.0f  %9.0f  %9.0f  %5.2f  ", name, pegs, step, with, plain, with / plain);
    if (plain - step < step / 50) {
        printf("%9s  %9s  %5s", "-", "-", "-");
    } else {
        printf("%9.0f  %9.0f  %5.2f", with - step, plain - step, (with - step) / (plain - step));
    }
    printf("  %10.0f  %5.2f\n", one_by_one, with / one_by_one);
}

int main(void) {
    static trial trials[EVENT_COUNT][SIZE_COUNT];
    static double best[EVENT_COUNT][SIZE_COUNT][WAY_COUNT], layout[EVENT_COUNT][SIZE_COUNT];
    uint8_t *pegs[SIZE_COUNT];
    lent.state = in_memory(state_length(N, Q));
    lent.pegs = in_memory(PEGS);
    lent.out = in_memory(out_length(N, Q));
    for (int i = 0; i < SIZE_COUNT; i++) {
        pegs[i] = make_register(SHORT_NAMES, SIZES[i]);
        for (int e = 0; e < EVENT_COUNT; e++) {
            trials[e][i] = EVENTS[e].make(SIZES[i]);
            try_once(e, &trials[e][i], pegs[i]);
        }
    }
    /* The best of several rounds; all ways, events and sizes take turns, so that a busy machine slows all of them. */
    for (int round = 0; round < ROUNDS * EVENT_COUNT * SIZE_COUNT; round++) {
        int e = round % EVENT_COUNT, i = round / EVENT_COUNT % SIZE_COUNT;
        keep_best(&layout[e][i], timed(e, &trials[e][i], pegs[i], 0, STEP));
        for (way w = STEP; w <= ONE_BY_ONE; w++) {
            keep_best(&best[e][i][w], timed(e, &trials[e][i], pegs[i], 1, w));
        }
    }
    printf("\nns of an event at %d servers, quota %d: the step alone, with the register, with the register in plain C, and what the register adds\n", N, Q);
    printf("event        pegs       step  with pegs    plain C  ratio       adds    plain C  ratio  one by one  ratio\n");
    for (int e = 0; e < EVENT_COUNT; e++) {
        for (int i = 0; i < SIZE_COUNT; i++) {
            print_line(EVENTS[e].name, SIZES[i], best[e][i], layout[e][i]);
        }
    }
    return 0;
}
