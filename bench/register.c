/* How long calls on a register take, against the same in plain C and against one pass over its used bytes, in the same run. Before that both answer to
   many operations and to changed registers, and must answer alike and leave the same bytes. */
#include "layout.h"
#include "made_pegs.h"
#include "plain_register.h"

#include <stdio.h>
#include <stdlib.h>
#include <string.h>
#include <time.h>

static const size_t SIZES[] = {16, 256, 1024, 4096};
static const char *const KINDS[] = {"short", "long"};

enum { SIZE_COUNT = sizeof SIZES / sizeof SIZES[0], KIND_COUNT = 2, ROUNDS = 200, NAMES = 64, LENGTH = GUZBYTOR_REGISTER_LENGTH };

typedef uint32_t apply(uint8_t *, size_t, const uint8_t *, size_t);
typedef guzbytor_register_find_answer find(const uint8_t *, size_t, const uint8_t *, size_t);

/* The same functions twice: the archive's, and those of plain C. */
static const struct {
    apply *apply;
    find *find;
} WAYS[] = {{guzbytor_register_apply, guzbytor_register_find}, {plain_register_apply, plain_register_find}};

static double seconds(void) {
    struct timespec t;
    clock_gettime(CLOCK_MONOTONIC, &t);
    return (double)t.tv_sec + 1e-9 * (double)t.tv_nsec;
}

static void fail(const char *what) {
    fprintf(stderr, "%s\n", what);
    exit(1);
}

/* ---- both alike */

static uint64_t drawn(void) {
    static uint64_t state = 1;
    state = state * 6364136223846793005u + 1442695040888963407u;
    return state >> 33;
}

static void same_finds(const uint8_t *a, const uint8_t *b, size_t length, const uint8_t *name, size_t name_length) {
    guzbytor_register_find_answer x = guzbytor_register_find(a, length, name, name_length), y = plain_register_find(b, length, name, name_length);
    if (x.number != y.number || x.found != y.found || x.index != y.index || x.easting != y.easting || x.northing != y.northing) {
        fail("a name is found differently");
    }
}

/* One operation: mostly on pegs that may be there, sometimes with a byte changed, of another length or in a short buffer. The number that both return.
   Few retires, so that the register gets as full as there are names. */
static uint32_t same_operation(uint8_t *a, uint8_t *b, names kind, size_t numbers) {
    uint8_t payload[MOST_OPERATION + 1] = {0};
    uint8_t operation = drawn() % 16 == 0 ? GUZBYTOR_RETIRE : drawn() % 2 == 0 ? GUZBYTOR_SET : GUZBYTOR_MOVE;
    size_t length = put_operation(payload, operation, kind, drawn() % numbers), buffer = LENGTH;
    switch (drawn() % 32) {
    case 0:
        payload[drawn() % length] ^= (uint8_t)(1u << drawn() % 8);
        break;
    case 1:
        length = drawn() % (MOST_OPERATION + 2);
        break;
    case 2:
        buffer -= drawn() % 2;
        break;
    }
    uint32_t x = guzbytor_register_apply(a, buffer, payload, length), y = plain_register_apply(b, buffer, payload, length);
    if (x != y || memcmp(a, b, LENGTH) != 0) {
        fail("an operation is answered differently, or leaves other bytes");
    }
    same_finds(a, b, buffer, payload + 2, length < 2 ? 0 : length - 2);
    same_finds(a, b, buffer, payload + 2, payload[1] < length ? payload[1] : 0);
    return x;
}

/* One byte changed, of those in use or just behind them. */
static uint32_t same_form(uint8_t *a, uint8_t *b) {
    size_t at = drawn() % 8 == 0 ? drawn() % 2 : drawn() % (pegs_used(a) < LENGTH ? pegs_used(a) + 1 : LENGTH);
    uint8_t old = a[at];
    a[at] = b[at] = drawn() % 2 == 0 ? (uint8_t)drawn() : (uint8_t)(old ^ 1u << drawn() % 8);
    uint32_t x = guzbytor_register_apply(a, LENGTH, NULL, 0), y = plain_register_apply(b, LENGTH, NULL, 0);
    if (x != y || memcmp(a, b, LENGTH) != 0) {
        fail("a changed register is answered differently");
    }
    same_finds(a, b, LENGTH, NULL, 0);
    a[at] = b[at] = old;
    return x;
}

static void agree(names kind, size_t count) {
    uint8_t *a = make_register(kind, count), *b = memcpy(malloc(LENGTH), a, LENGTH);
    size_t numbers[14] = {0}, operations = 4000, changes = 20000, malformed = 0;
    for (size_t i = 0; i < operations; i++) {
        numbers[same_operation(a, b, kind, count + count / 4)]++;
    }
    for (size_t i = 0; i < changes; i++) {
        malformed += same_form(a, b) == GUZBYTOR_BAD_STATE;
    }
    printf("%s names, %4zu pegs: %zu operations (taken %zu, 7 %zu, 11 %zu, 9 %zu, 13 %zu, 10 %zu), %zu changed registers (8 %zu), by both alike\n", KINDS[kind],
           count, operations, numbers[0], numbers[7], numbers[11], numbers[9], numbers[13], numbers[10], changes, malformed);
    free(a);
    free(b);
}

/* ---- times */

/* A register, and operations on NAMES of its pegs. */
typedef struct {
    uint8_t *pegs;
    uint8_t moves[NAMES][MOST_OPERATION], retires[NAMES][MOST_OPERATION], sets[NAMES][MOST_OPERATION];
} trial_register;

static trial_register made(names kind, size_t count) {
    trial_register t = {.pegs = make_register(kind, count)};
    for (size_t k = 0; k < NAMES; k++) {
        put_operation(t.moves[k], GUZBYTOR_MOVE, kind, spread(k, count));
        put_operation(t.retires[k], GUZBYTOR_RETIRE, kind, spread(k, count));
        put_operation(t.sets[k], GUZBYTOR_SET, kind, spread(k, count));
    }
    return t;
}

/* What is timed: one call on each of NAMES names, or two; 0 where all answer as they must. */
static uint32_t check_form(const trial_register *t, size_t k, int way) {
    (void)k;
    return WAYS[way].apply(t->pegs, LENGTH, NULL, 0) ^ GUZBYTOR_NO_OPERATION;
}

static uint32_t find_name(const trial_register *t, size_t k, int way) { return WAYS[way].find(t->pegs, LENGTH, t->moves[k] + 2, t->moves[k][1]).found ^ 1; }

static uint32_t move(const trial_register *t, size_t k, int way) { return WAYS[way].apply(t->pegs, LENGTH, t->moves[k], 10u + t->moves[k][1]); }

static uint32_t retire_and_set(const trial_register *t, size_t k, int way) {
    uint32_t number = WAYS[way].apply(t->pegs, LENGTH, t->retires[k], 2u + t->retires[k][1]);
    return number | WAYS[way].apply(t->pegs, LENGTH, t->sets[k], 10u + t->sets[k][1]);
}

static uint32_t pass(const trial_register *t, size_t k, int way) {
    (void)k;
    (void)way;
    return or_of_pegs(t->pegs) == 0;
}

static const struct {
    const char *name;
    uint32_t (*call)(const trial_register *, size_t, int);
    int calls; /* in one */
} TIMED[] = {{"form check", check_form, 1}, {"find", find_name, 1}, {"move", move, 1}, {"retire, set", retire_and_set, 2}, {"pass", pass, 1}};

enum { TIMED_COUNT = sizeof TIMED / sizeof TIMED[0] };

/* Nanoseconds of one call. */
static double timed(int what, const trial_register *t, int way) {
    uint32_t bad = 0;
    double from = seconds();
    for (size_t k = 0; k < NAMES; k++) {
        bad |= TIMED[what].call(t, k, way);
    }
    if (bad != 0) {
        fail(TIMED[what].name);
    }
    return 1e9 * (seconds() - from) / NAMES / TIMED[what].calls;
}

int main(void) {
    static trial_register registers[KIND_COUNT][SIZE_COUNT];
    static double best[KIND_COUNT][SIZE_COUNT][TIMED_COUNT][2];
    for (int kind = 0; kind < KIND_COUNT; kind++) {
        for (int i = 0; i < SIZE_COUNT; i++) {
            agree((names)kind, SIZES[i]);
            registers[kind][i] = made((names)kind, SIZES[i]);
        }
    }
    /* The best of several rounds; both ways, all calls and all sizes take turns, so that a busy machine slows all of them. */
    for (int round = 0; round < ROUNDS * KIND_COUNT * SIZE_COUNT * TIMED_COUNT * 2; round++) {
        int way = round % 2, what = round / 2 % TIMED_COUNT, i = round / 2 / TIMED_COUNT % SIZE_COUNT;
        int kind = round / 2 / TIMED_COUNT / SIZE_COUNT % KIND_COUNT;
        double ns = timed(what, &registers[kind][i], way), *b = &best[kind][i][what][way];
        *b = *b == 0 || ns < *b ? ns : *b;
    }
    printf("\ncall         names  pegs  used bytes        ns   plain C  ratio  ns/byte  to pass\n");
    for (int what = 0; what < TIMED_COUNT - 1; what++) {
        for (int kind = 0; kind < KIND_COUNT; kind++) {
            for (int i = 0; i < SIZE_COUNT; i++) {
                double *b = best[kind][i][what], used = (double)pegs_used(registers[kind][i].pegs);
                printf("%-11s  %-5s  %4zu  %10.0f  %8.0f  %8.0f  %5.2f  %7.3f  %7.2f\n", TIMED[what].name, KINDS[kind], SIZES[i], used, b[0], b[1], b[0] / b[1],
                       b[0] / used, b[0] / best[kind][i][TIMED_COUNT - 1][0]);
            }
        }
    }
    return 0;
}
