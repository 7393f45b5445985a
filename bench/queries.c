/* How long questions on pegs in the plane take, against the same in plain C and against the register's check alone, in the same run. Before that both
   answer to many questions, on changed registers too, and must answer alike and leave the same bytes. */
#include "made_pegs.h"
#include "plain_queries.h"
#include "plain_register.h"

#include <stdio.h>
#include <stdlib.h>
#include <string.h>
#include <time.h>

static const size_t SIZES[] = {16, 256, 1024, 4096};

enum { SIZE_COUNT = sizeof SIZES / sizeof SIZES[0], ROUNDS = 200, CALLS = 16, LENGTH = GUZBYTOR_REGISTER_LENGTH };

typedef uint32_t rectangle(const uint8_t *, size_t, int32_t, int32_t, int32_t, int32_t, uint8_t *, size_t);
typedef uint32_t radius(const uint8_t *, size_t, int32_t, int32_t, uint32_t, uint8_t *, size_t);
typedef guzbytor_register_find_answer nearest(const uint8_t *, size_t, int32_t, int32_t);
typedef uint32_t apply(uint8_t *, size_t, const uint8_t *, size_t);

/* The same functions twice: the archive's, and those of plain C. */
static const struct {
    rectangle *rectangle;
    radius *radius;
    nearest *nearest;
    apply *apply;
} WAYS[] = {{guzbytor_register_rectangle, guzbytor_register_radius, guzbytor_register_nearest, guzbytor_register_apply},
            {plain_register_rectangle, plain_register_radius, plain_register_nearest, plain_register_apply}};

static uint8_t answers[2][LENGTH];

static double seconds(void) {
    struct timespec t;
    clock_gettime(CLOCK_MONOTONIC, &t);
    return (double)t.tv_sec + 1e-9 * (double)t.tv_nsec;
}

static void fail(const char *what) {
    fprintf(stderr, "%s\n", what);
    exit(1);
}

/* ---- both alike */

static uint64_t drawn(void) {
    static uint64_t state = 1;
    state = state * 6364136223846793005u + 1442695040888963407u;
    return state >> 32;
}

/* At a peg or one millimetre beside it, at an end of the range, or anywhere. */
static int32_t coordinate_near(const uint8_t *pegs, int32_t (*of)(const uint8_t *)) {
    static const int32_t ends[] = {INT32_MIN, INT32_MIN + 1, -1, 0, 1, INT32_MAX - 1, INT32_MAX};
    uint64_t kind = drawn() % 8;
    if (kind < 2) {
        return kind == 0 ? ends[drawn() % 7] : (int32_t)(uint32_t)drawn();
    }
    int64_t c = of(pegs + peg_at(drawn() % peg_count(pegs))) + (int64_t)(drawn() % 3) - 1;
    return (int32_t)(c < INT32_MIN ? INT32_MIN : c > INT32_MAX ? INT32_MAX : c);
}

static uint32_t same_question(const uint8_t *pegs, const uint8_t *asked, size_t length, size_t lent) {
    int32_t e = coordinate_near(pegs, peg_easting), n = coordinate_near(pegs, peg_northing);
    int32_t u = coordinate_near(pegs, peg_easting), v = coordinate_near(pegs, peg_northing);
    uint32_t numbers[2], far = drawn() % 4 == 0 ? (uint32_t)drawn() : (uint32_t)((int64_t)u - e < 0 ? (int64_t)e - u : (int64_t)u - e);
    uint64_t kind = drawn() % 3;
    for (int way = 0; way < 2; way++) {
        guzbytor_register_find_answer a = {0};
        switch (kind) {
        case 0:
            numbers[way] = WAYS[way].rectangle(asked, length, e, n, u, v, answers[way], lent);
            break;
        case 1:
            numbers[way] = WAYS[way].radius(asked, length, e, n, far, answers[way], lent);
            break;
        default:
            a = WAYS[way].nearest(asked, length, e, n);
            numbers[way] = a.number;
            memcpy(answers[way], &a, sizeof a);
        }
    }
    if (numbers[0] != numbers[1] || memcmp(answers[0], answers[1], LENGTH) != 0) {
        fail("a question is answered differently");
    }
    return numbers[0];
}

static void agree(size_t count) {
    uint8_t *pegs = make_register(SHORT_NAMES, count), *asked = memcpy(malloc(LENGTH), pegs, LENGTH);
    size_t numbers[13] = {0}, questions = 20000;
    for (size_t i = 0; i < questions; i++) {
        size_t at = drawn() % pegs_used(pegs), length = LENGTH, lent = LENGTH;
        switch (drawn() % 16) {
        case 0:
            asked[at] ^= (uint8_t)(1u << drawn() % 8);
            break;
        case 1:
            length -= 1;
            break;
        case 2:
            lent -= 1;
            break;
        }
        numbers[same_question(pegs, asked, length, lent)]++;
        asked[at] = pegs[at];
    }
    printf("%4zu pegs: %zu questions (answered %zu, 7 %zu, 8 %zu, 12 %zu), by both alike\n", count, questions, numbers[0], numbers[7], numbers[8], numbers[12]);
    free(pegs);
    free(asked);
}

/* ---- times: pegs are spread over the whole plane */

enum { TENTH = -1717986919, TENTH_RADIUS = 766285850 };

static uint32_t form_check(uint8_t *pegs, int way) { return WAYS[way].apply(pegs, LENGTH, NULL, 0) ^ GUZBYTOR_NO_OPERATION; }

static uint32_t none_inside(uint8_t *pegs, int way) { return WAYS[way].rectangle(pegs, LENGTH, 0, 0, 0, 0, answers[way], LENGTH); }

static uint32_t tenth_inside(uint8_t *pegs, int way) {
    return WAYS[way].rectangle(pegs, LENGTH, INT32_MIN, INT32_MIN, TENTH, INT32_MAX, answers[way], LENGTH);
}

static uint32_t all_inside(uint8_t *pegs, int way) {
    return WAYS[way].rectangle(pegs, LENGTH, INT32_MIN, INT32_MIN, INT32_MAX, INT32_MAX, answers[way], LENGTH);
}

static uint32_t none_within(uint8_t *pegs, int way) { return WAYS[way].radius(pegs, LENGTH, 0, 0, 0, answers[way], LENGTH); }

static uint32_t tenth_within(uint8_t *pegs, int way) { return WAYS[way].radius(pegs, LENGTH, 0, 0, TENTH_RADIUS, answers[way], LENGTH); }

static uint32_t all_within(uint8_t *pegs, int way) { return WAYS[way].radius(pegs, LENGTH, 0, 0, UINT32_MAX, answers[way], LENGTH); }

static uint32_t nearest_peg(uint8_t *pegs, int way) { return WAYS[way].nearest(pegs, LENGTH, 0, 0).found ^ 1; }

static const struct {
    const char *name;
    uint32_t (*call)(uint8_t *, int);
} TIMED[] = {{"form check", form_check},    {"rectangle, none", none_inside}, {"rectangle, a tenth", tenth_inside}, {"rectangle, all", all_inside},
             {"radius, none", none_within}, {"radius, a tenth", tenth_within}, {"radius, all", all_within},          {"nearest", nearest_peg}};

enum { TIMED_COUNT = sizeof TIMED / sizeof TIMED[0] };

/* Nanoseconds of one call. */
static double timed(int what, uint8_t *pegs, int way) {
    uint32_t bad = 0;
    double from = seconds();
    for (int k = 0; k < CALLS; k++) {
        bad |= TIMED[what].call(pegs, way);
    }
    if (bad != 0) {
        fail(TIMED[what].name);
    }
    return 1e9 * (seconds() - from) / CALLS;
}

int main(void) {
    static uint8_t *registers[SIZE_COUNT];
    static double best[SIZE_COUNT][TIMED_COUNT][2];
    for (int i = 0; i < SIZE_COUNT; i++) {
        agree(SIZES[i]);
        registers[i] = make_register(SHORT_NAMES, SIZES[i]);
    }
    /* The best of several rounds; both ways, all calls and all sizes take turns, so that a busy machine slows all of them. */
    for (int round = 0; round < ROUNDS * SIZE_COUNT * TIMED_COUNT * 2; round++) {
        int way = round % 2, what = round / 2 % TIMED_COUNT, i = round / 2 / TIMED_COUNT % SIZE_COUNT;
        double ns = timed(what, registers[i], way), *b = &best[i][what][way];
        *b = *b == 0 || ns < *b ? ns : *b;
    }
    printf("\nquestion            pegs        ns   plain C  ratio  to check  behind it: ns  plain C  ratio\n");
    for (int what = 0; what < TIMED_COUNT; what++) {
        for (int i = 0; i < SIZE_COUNT; i++) {
            double *b = best[i][what], *check = best[i][0];
            printf("%-18s  %4zu  %8.0f  %8.0f  %5.2f  %8.2f", TIMED[what].name, SIZES[i], b[0], b[1], b[0] / b[1], b[0] / check[0]);
            if (what > 0) {
                printf("  %13.0f  %7.0f  %5.2f", b[0] - check[0], b[1] - check[1], (b[0] - check[0]) / (b[1] - check[1]));
            }
            printf("\n");
        }
    }
    return 0;
}
