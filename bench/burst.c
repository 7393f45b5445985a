/* What an action costs in Reg_prim, one by one and in bursts, over recorded runs (record.c), against one pass over the state's used bytes
   (one_pass.c) in the same run. */
#include "layout.h"
#include "run.h"

#include <string.h>
#include <time.h>

enum { ROUNDS = 400, ROW = 32, MOST_ROWS = 64 };

/* How the ROW first actions of a row are given: a step for each, or bursts of so many. */
static const size_t WAYS[] = {0, 1, 8, 32};

enum { WAY_COUNT = sizeof WAYS / sizeof WAYS[0] };

/* Actions that come one after another at server 0 in Reg_prim: where the row begins, the state then, and the best nanoseconds: of its ROW first
   actions by each way, of a burst of the first 8, of the state check and of one pass over the used bytes. */
typedef struct {
    const uint8_t *events;
    size_t length, length_of_8;
    uint8_t *state;
    double way[WAY_COUNT], burst_of_8, check, pass;
} row;

typedef struct {
    size_t servers, quota;
    guzbytor_lengths_answer lengths;
    uint8_t *state, *out;
    row rows[MOST_ROWS];
    size_t count;
} run;

static double now(void) {
    struct timespec t;
    clock_gettime(CLOCK_MONOTONIC, &t);
    return 1e9 * (double)t.tv_sec + (double)t.tv_nsec;
}

static void fail(const char *what) {
    fprintf(stderr, "%s\n", what);
    exit(1);
}

/* The actions that the events begin with, at most `most`; their bytes one behind another in `to`. */
static size_t front(const uint8_t *b, size_t length, size_t most, uint8_t *to, size_t *count) {
    size_t put = 0;
    for (*count = 0; length > 0 && *count < most && (b[0] != 0 || b[1 + GUZBYTOR_AT_KIND] == GUZBYTOR_KIND_ACTION); ) {
        size_t whole = record_length(b + 1);
        if (b[0] == 0) {
            memcpy(to + put, b + 1, whole);
            put += whole;
            ++*count;
        }
        b += 1 + whole;
        length -= 1 + whole;
    }
    return put;
}

/* A row begins here if server 0 is in Reg_prim and gets ROW actions one after another. */
static void note_row(run *r, const uint8_t *b, size_t length) {
    static uint8_t bytes[ROW * (GUZBYTOR_AT_BODY + SLOT_SIZE)];
    size_t count, of_8;
    if (r->state[AT_STATE] != GUZBYTOR_REG_PRIM || b[0] != 0 || b[1 + GUZBYTOR_AT_KIND] != GUZBYTOR_KIND_ACTION || r->count == MOST_ROWS) {
        return;
    }
    of_8 = front(b, length, 8, bytes, &count);
    size_t all = front(b, length, ROW, bytes, &count);
    if (count < ROW) {
        return;
    }
    row *x = &r->rows[r->count++];
    *x = (row){.events = memcpy(lent(all).bytes, bytes, all), .length = all, .length_of_8 = of_8};
    x->state = memcpy(lent(r->lengths.state).bytes, r->state, r->lengths.state);
}

/* The rows of server 0 in a recorded run, one for each time that requests were followed by actions. */
static void find_rows(run *r, buffer input) {
    const uint8_t *b = input.bytes + SETUP_LENGTH;
    size_t length = input.length - SETUP_LENGTH;
    int fresh = 1;
    while (length > 0) {
        size_t whole = record_length(b + 1);
        if (b[0] == 0) {
            if (fresh) {
                note_row(r, b, length);
            }
            fresh = b[1 + GUZBYTOR_AT_KIND] != GUZBYTOR_KIND_ACTION;
            if (guzbytor_step(r->state, r->lengths.state, b + 1, whole, r->out, r->lengths.out).number != 0) {
                fail("a recorded event is refused");
            }
        }
        b += 1 + whole;
        length -= 1 + whole;
    }
}

static run opened(const char *name) {
    buffer input = read_file(name);
    run r = {0};
    if (set_up(input, &r.lengths) != 0) {
        fail("no run");
    }
    r.servers = input.bytes[SETUP_SERVERS];
    r.quota = setup_quota(input.bytes);
    r.state = lent(r.lengths.state).bytes;
    r.out = lent(r.lengths.out).bytes;
    memset(r.state, 0, r.lengths.state);
    guzbytor_start(r.state, r.lengths.state, (uint32_t)r.servers, (uint32_t)r.quota, 0);
    find_rows(&r, input);
    return r;
}

/* Nanoseconds for these events, each by a step, or in bursts of so many. */
static double timed(run *r, const row *x, size_t length, size_t burst) {
    memcpy(r->state, x->state, r->lengths.state);
    const uint8_t *b = x->events, *end = b + length;
    double from = now();
    while (b < end) {
        size_t whole = record_length(b);
        for (size_t i = 1; i < burst && b + whole < end; i++) {
            whole += record_length(b + whole);
        }
        size_t taken = whole;
        if (burst == 0) {
            guzbytor_step(r->state, r->lengths.state, b, whole, r->out, r->lengths.out);
        } else {
            taken = guzbytor_burst(r->state, r->lengths.state, b, whole, r->out, r->lengths.out).bytes;
        }
        if (taken != whole) {
            fail("a burst stops early");
        }
        b += whole;
    }
    return now() - from;
}

/* Nanoseconds of one of `calls` checks, or passes. */
static double timed_check(const run *r, const row *x, int pass) {
    size_t calls = 200000 / r->lengths.state + 1;
    double from = now();
    for (size_t i = 0; i < calls; i++) {
        if (pass ? or_of_used(x->state) == 0 : guzbytor_state_check(x->state, r->lengths.state, r->out, r->lengths.out) != 0) {
            fail("no state");
        }
    }
    return (now() - from) / (double)calls;
}

static void keep_best(double *best, double ns) {
    if (*best == 0 || ns < *best) {
        *best = ns;
    }
}

static void measure(run *r, row *x) {
    for (size_t w = 0; w < WAY_COUNT; w++) {
        keep_best(&x->way[w], timed(r, x, x->length, WAYS[w]));
    }
    keep_best(&x->burst_of_8, timed(r, x, x->length_of_8, 8));
    keep_best(&x->check, timed_check(r, x, 0));
    keep_best(&x->pass, timed_check(r, x, 1));
}

/* How many actions the queue has. */
static size_t held_in(const uint8_t *b) {
    const uint8_t *count = b + AT_QUEUE_COUNT;
    return (size_t)count[0] << 24 | (size_t)count[1] << 16 | (size_t)count[2] << 8 | count[3];
}

/* The mean over the rows from `first` on, of an action. */
static void print_rows(const run *r, size_t first, const char *which) {
    double way[WAY_COUNT] = {0}, check = 0, pass = 0, held = 0, rows = (double)(r->count - first);
    for (size_t k = first; k < r->count; k++) {
        for (size_t w = 0; w < WAY_COUNT; w++) {
            way[w] += r->rows[k].way[w] / ROW / rows;
        }
        check += r->rows[k].check / rows;
        pass += r->rows[k].pass / rows;
        held += (double)held_in(r->rows[k].state) / rows;
    }
    printf("%zu %3zu  %-4s  %5.0f  %5.0f %5.0f ", r->servers, r->quota, which, held, pass, check);
    for (size_t w = 0; w < WAY_COUNT; w++) {
        printf(" %7.0f (%6.2f, %5.3f)", way[w], way[w] / pass, way[w] / way[0]);
    }
    printf("  %5.1f %5.1f\n", 100 * check / way[0], 100 * check / ROW / way[WAY_COUNT - 1]);
}

int main(int count, char **words) {
    static run runs[8];
    if (count < 2 || count > 9) {
        fail("usage: burst RUN ..");
    }
    for (int i = 1; i < count; i++) {
        runs[i - 1] = opened(words[i]);
    }
    for (int round = 0; round < ROUNDS; round++) {
        for (int i = 0; i + 1 < count; i++) {
            for (size_t k = 0; k < runs[i].count; k++) {
                measure(&runs[i], &runs[i].rows[k]);
            }
        }
    }
    printf("\nns of an action in Reg_prim at server 0 (to one pass over the used bytes, to a step); held: actions in the queue as a row begins\n");
    printf("the check's share in percent, last: of a step, of a burst of 32\n");
    printf("n   q  rows   held   pass check   step                    burst of 1              burst of 8              "
           "burst of 32             step    32\n");
    for (int i = 0; i + 1 < count; i++) {
        print_rows(&runs[i], 0, "all");
        print_rows(&runs[i], runs[i].count - 1, "last");
    }
    printf("one more action in a burst, in the last row: ns, and to the first run\n");
    double first = 0;
    for (int i = 0; i + 1 < count; i++) {
        const row *x = &runs[i].rows[runs[i].count - 1];
        double more = (x->way[WAY_COUNT - 1] - x->burst_of_8) / (ROW - 8);
        first = i == 0 ? more : first;
        printf("%zu %3zu  held %4zu  %6.1f  %5.2f\n", runs[i].servers, runs[i].quota, held_in(x->state), more, more / first);
    }
    return 0;
}
