/* How long it takes to write the part of a plan, 2 n q records: the last State at the server that resends everything, at another server of the
   same exchange, whose part is empty, and memcpy of as many bytes in the same run. The first less the second is the part alone: both lay a state
   out, check it, take the State in and work the plan out.

   A line for each case: n, q, payload, records, their bytes; nanoseconds of laying a state out, of that and the step with the whole part, of that
   and the step with the empty one, of memcpy; the FNV-1a hash of the records. scripts/bench_writing.sh reads these lines. */
#include "plan.h"
#include "timed_step.h"

#include <inttypes.h>
#include <stdio.h>
#include <stdlib.h>
#include <string.h>

static const struct {
    size_t n, q;
} SIZES[] = {{2, 16}, {4, 64}, {8, 256}};

static const size_t PAYLOADS[] = {0, 12, 48};

enum {
    SIZE_COUNT = sizeof SIZES / sizeof SIZES[0],
    PAYLOAD_COUNT = sizeof PAYLOADS / sizeof PAYLOADS[0],
    CASE_COUNT = SIZE_COUNT * PAYLOAD_COUNT,
    ROUNDS = 100
};

/* One case, and the best nanoseconds of each. */
typedef struct {
    size_t n, q, payload;
    trial whole, empty;
    uint8_t *records; /* what the whole part is, to copy from */
    uint64_t hash;
    double layout_ns, whole_ns, empty_ns, copy_ns;
} writing;

/* FNV-1a, 64 bits. */
static uint64_t hash_of(const uint8_t *b, size_t length) {
    uint64_t h = UINT64_C(0xcbf29ce484222325);
    for (size_t i = 0; i < length; i++) {
        h = (h ^ b[i]) * UINT64_C(0x100000001b3);
    }
    return h;
}

static writing made(size_t n, size_t q, size_t payload, uint8_t *state, uint8_t *out) {
    writing w = {.n = n, .q = q, .payload = payload, .whole = resend(n, q, 0, payload, 0), .empty = resend(n, q, 0, payload, 1)};
    w.whole.state.used = used_bytes(w.whole.state.bytes);
    w.empty.state.used = used_bytes(w.empty.state.bytes);
    if (w.whole.state.used != w.empty.state.used) {
        fprintf(stderr, "the two servers' states do not use as many bytes\n");
        exit(1);
    }
    try_once("empty part", &w.empty, state, out);
    try_once("whole part", &w.whole, state, out);
    w.records = in_memory(w.whole.sent_after);
    memcpy(w.records, out, w.whole.sent_after);
    w.hash = hash_of(out, w.whole.sent_after);
    return w;
}

static void time_once(writing *w, uint8_t *state, uint8_t *out) {
    const full_state *s = &w->whole.state;
    size_t calls = 1000000 / s->used + 1;
    keep_best(&w->whole_ns, laid_out_and_stepped(&w->whole, state, out, calls));
    keep_best(&w->empty_ns, laid_out_and_stepped(&w->empty, state, out, calls));
    keep_best(&w->layout_ns, copied(state, s->bytes, s->length, calls));
    keep_best(&w->copy_ns, copied(out, w->records, w->whole.sent_after, calls));
}

int main(void) {
    static writing cases[CASE_COUNT];
    uint8_t *state = in_memory(state_length(GUZBYTOR_MOST_SERVERS, GUZBYTOR_MOST_QUOTA));
    uint8_t *out = in_memory(out_length(GUZBYTOR_MOST_SERVERS, GUZBYTOR_MOST_QUOTA));
    for (int i = 0; i < CASE_COUNT; i++) {
        cases[i] = made(SIZES[i / PAYLOAD_COUNT].n, SIZES[i / PAYLOAD_COUNT].q, PAYLOADS[i % PAYLOAD_COUNT], state, out);
    }
    /* The best of several rounds; all cases take turns, so that a busy machine slows all of them. */
    for (int round = 0; round < ROUNDS; round++) {
        for (int i = 0; i < CASE_COUNT; i++) {
            time_once(&cases[i], state, out);
        }
    }
    for (int i = 0; i < CASE_COUNT; i++) {
        const writing *w = &cases[i];
        size_t records = 2 * w->n * w->q, bytes = w->whole.sent_after;
        printf("%zu %zu %zu %zu %zu %.1f %.1f %.1f %.1f %016" PRIx64 "\n", w->n, w->q, w->payload, records, bytes, w->layout_ns, w->whole_ns,
               w->empty_ns, w->copy_ns, w->hash);
    }
    return 0;
}
