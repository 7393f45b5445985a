/* How much stack each exported function takes: it is called on a stack of its own, which was painted before, and the lowest byte that has changed is
   looked for. States are full, of 8 servers with the quota 256, and get the costly events; the register has 4,096 pegs. */
#include "costly.h"
#include "made_pegs.h"

#include <stdio.h>
#include <stdlib.h>
#include <string.h>
#include <ucontext.h>

enum { N = GUZBYTOR_MOST_SERVERS, Q = GUZBYTOR_MOST_QUOTA, PEGS = GUZBYTOR_REGISTER_LENGTH, STACK = 64 * 1024, PAINT = 0xA5, ROW = 32 };

static uint8_t stack[STACK];

/* What a call is lent: `length` is the state's, `row_length` that of the event ROW times. `number` is its answer's. */
static struct {
    uint8_t *state, *pegs, *out, *event, *answer, entries[4096], payload[MOST_OPERATION];
    size_t length, out_length, event_length, row_length, payload_length;
    uint32_t number;
} lent;

static void fail(const char *what) {
    fprintf(stderr, "%s\n", what);
    exit(1);
}

/* The bytes of stack from the call of f on. */
static size_t depth(void (*f)(void)) {
    static ucontext_t here, there;
    memset(stack, PAINT, STACK);
    if (getcontext(&there) != 0) {
        fail("no context");
    }
    there.uc_stack = (stack_t){.ss_sp = stack, .ss_size = STACK};
    there.uc_link = &here;
    makecontext(&there, f, 0);
    if (swapcontext(&here, &there) != 0) {
        fail("no context");
    }
    size_t lowest = 0;
    while (lowest < STACK && stack[lowest] == PAINT) {
        lowest++;
    }
    return STACK - lowest;
}

/* ---- the calls */

static void nothing(void) {}

static void lengths(void) { lent.number = guzbytor_lengths(N, Q).number; }

static void start(void) { lent.number = guzbytor_start(lent.state, lent.length, N, Q, N - 1); }

static void state_check(void) { lent.number = guzbytor_state_check(lent.state, lent.length, lent.out, lent.out_length); }

static void summary(void) { lent.number = guzbytor_summary(lent.state, lent.length).number; }

static void green_entries(void) { lent.number = guzbytor_green_entries(lent.state, lent.length, 0, lent.entries, sizeof lent.entries).number; }

static void step(void) { lent.number = guzbytor_step(lent.state, lent.length, lent.event, lent.event_length, lent.out, lent.out_length).number; }

/* The event ROW times: a burst ends behind the first where that stores or puts out records. */
static void burst(void) {
    lent.number = guzbytor_burst(lent.state, lent.length, lent.event, lent.row_length, lent.out, lent.out_length).events == 0;
}

static void register_step(void) {
    lent.number = guzbytor_register_step(lent.state, lent.length, lent.pegs, PEGS, lent.event, lent.event_length, lent.out, lent.out_length).number;
}

static void register_burst(void) {
    lent.number = guzbytor_register_burst(lent.state, lent.length, lent.pegs, PEGS, lent.event, lent.row_length, lent.out, lent.out_length).events == 0;
}

static void register_length(void) { lent.number = guzbytor_register_length() != PEGS; }

static void register_start(void) { lent.number = guzbytor_register_start(lent.pegs, PEGS); }

static void register_apply(void) { lent.number = guzbytor_register_apply(lent.pegs, PEGS, lent.payload, lent.payload_length); }

static void register_find(void) { lent.number = guzbytor_register_find(lent.pegs, PEGS, lent.payload + 2, lent.payload[1]).number; }

static void rectangle(void) {
    lent.number = guzbytor_register_rectangle(lent.pegs, PEGS, INT32_MIN, INT32_MIN, INT32_MAX, INT32_MAX, lent.answer, PEGS);
}

static void radius(void) { lent.number = guzbytor_register_radius(lent.pegs, PEGS, 0, 0, UINT32_MAX, lent.answer, PEGS); }

static void nearest(void) { lent.number = guzbytor_register_nearest(lent.pegs, PEGS, 0, 0).number; }

static const struct {
    const char *name;
    void (*call)(void);
} CALLS[] = {
    {"lengths", lengths}, {"start", start}, {"state_check", state_check}, {"summary", summary}, {"green_entries", green_entries}, {"step", step},
    {"burst", burst}, {"register_length", register_length}, {"register_start", register_start}, {"register_apply", register_apply},
    {"register_find", register_find}, {"register_rectangle", rectangle}, {"register_radius", radius}, {"register_nearest", nearest},
    {"register_step", register_step}, {"register_burst", register_burst},
};

enum { CALL_COUNT = sizeof CALLS / sizeof CALLS[0] };

/* State, register, event and a payload, each call anew: a move, a retire, or a set in the place of a retired one. */
static void lay_out(const trial *t, const uint8_t *pegs, int k) {
    static const uint8_t operations[] = {GUZBYTOR_MOVE, GUZBYTOR_RETIRE, GUZBYTOR_SET};
    uint8_t operation = operations[k % 3];
    memcpy(lent.state, t->state.bytes, t->state.length);
    memcpy(lent.pegs, pegs, PEGS);
    for (int i = 0; i < ROW; i++) {
        memcpy(lent.event + (size_t)i * t->event_length, t->event, t->event_length);
    }
    lent.length = t->state.length;
    lent.out_length = t->state.out_length;
    lent.event_length = t->event_length;
    lent.row_length = ROW * t->event_length;
    if (operation == GUZBYTOR_SET) {
        lent.payload_length = put_operation(lent.payload, GUZBYTOR_RETIRE, LONG_NAMES, 0);
        register_apply();
    }
    lent.payload_length = put_operation(lent.payload, operation, LONG_NAMES, 0);
}

int main(void) {
    static trial trials[COSTLY_COUNT];
    size_t most[CALL_COUNT] = {0}, longest = 0;
    int at[CALL_COUNT] = {0};
    const uint8_t *pegs = make_register(LONG_NAMES, GUZBYTOR_MOST_PEGS);
    for (int e = 0; e < COSTLY_COUNT; e++) {
        trials[e] = COSTLY[e].make(N, Q, 0);
        longest = trials[e].event_length > longest ? trials[e].event_length : longest;
    }
    lent.state = in_memory(state_length(N, Q));
    lent.pegs = in_memory(PEGS);
    lent.out = in_memory(out_length(N, Q));
    lent.event = in_memory(ROW * longest);
    lent.answer = in_memory(PEGS);
    size_t empty = depth(nothing);
    for (int e = 0; e < COSTLY_COUNT; e++) {
        for (int c = 0; c < CALL_COUNT; c++) {
            lay_out(&trials[e], pegs, e);
            size_t bytes = depth(CALLS[c].call) - empty;
            if (lent.number != 0) {
                fail(CALLS[c].name);
            }
            if (bytes > most[c]) {
                most[c] = bytes;
                at[c] = e;
            }
        }
    }
    printf("\nbytes of stack at %d servers, quota %d, %d pegs\n", N, Q, GUZBYTOR_MOST_PEGS);
    for (int c = 0; c < CALL_COUNT; c++) {
        printf("guzbytor_%-18s  %6zu  %s\n", CALLS[c].name, most[c], COSTLY[at[c]].name);
    }
    return 0;
}
