/* How long the state check takes over full states: nanoseconds per used byte, against the same check in plain C in the same run. */
#include "guzbytor.h"
#include "layout.h"

#include <stdio.h>
#include <stdlib.h>
#include <time.h>

typedef uint32_t check(const uint8_t *, size_t, const uint8_t *, size_t);

static const struct {
    size_t n, q;
} SIZES[] = {{2, 16}, {4, 64}, {8, 256}};

static const char *const NAMES[] = {"full queue", "full own list"};

/* How many actions of each creator are white in the states that are changed; in those that are timed none is. */
static const size_t WHITES[] = {0, 100, 60000};

enum { WHITE_COUNT = sizeof WHITES / sizeof WHITES[0], COUNT = sizeof SIZES / sizeof SIZES[0], ROUNDS = 200 };

static double seconds(void) {
    struct timespec t;
    clock_gettime(CLOCK_MONOTONIC, &t);
    return (double)t.tv_sec + 1e-9 * (double)t.tv_nsec;
}

/* Nanoseconds of one call. */
static double timed(check *f, const full_state *s, const uint8_t *out, size_t calls) {
    double from = seconds();
    for (size_t i = 0; i < calls; i++) {
        if (f(s->bytes, s->length, out, s->out_length) != 0) {
            fprintf(stderr, "a full state is refused\n");
            exit(1);
        }
    }
    return 1e9 * (seconds() - from) / (double)calls;
}

/* Both checks answer alike where bytes are changed: one of the first 200, or any one. */
static void agree(const full_state *s, size_t white, const uint8_t *out) {
    size_t changes = 200000000 / s->length, refused = 0;
    uint64_t random = 1;
    for (size_t i = 0; i < changes; i++) {
        random = random * 6364136223846793005u + 1442695040888963407u;
        size_t at = (random >> 33) % (i % 2 == 0 ? 200 : s->length);
        uint8_t old = s->bytes[at];
        s->bytes[at] = (uint8_t)(random >> 25);
        uint32_t rattle = guzbytor_state_check(s->bytes, s->length, out, s->out_length);
        uint32_t plain = plain_state_check(s->bytes, s->length, out, s->out_length);
        if (rattle != plain) {
            fprintf(stderr, "byte %zu changed from %u to %u: %u and %u\n", at, old, s->bytes[at], rattle, plain);
            exit(1);
        }
        refused += rattle != 0;
        s->bytes[at] = old;
    }
    printf("%zu servers, quota %zu, %zu white of each: %zu changed states, %zu of them refused, by both alike\n", (size_t)s->bytes[AT_SERVERS],
           (size_t)s->bytes[AT_QUOTA] << 8 | s->bytes[AT_QUOTA + 1], white, changes, refused);
}

int main(void) {
    static double rattle[2][COUNT], plain[2][COUNT];
    static full_state states[2][COUNT];
    uint8_t *out = calloc(1, out_length(GUZBYTOR_MOST_SERVERS, GUZBYTOR_MOST_QUOTA));
    if (out == NULL) {
        return 1;
    }
    for (int what = 0; what < 2; what++) {
        for (int i = 0; i < COUNT; i++) {
            for (int w = 0; w < WHITE_COUNT; w++) {
                full_state s = make_full_state(SIZES[i].n, SIZES[i].q, WHITES[w], (fullness)what);
                agree(&s, WHITES[w], out);
                free(s.bytes);
            }
            states[what][i] = make_full_state(SIZES[i].n, SIZES[i].q, 0, (fullness)what);
        }
    }
    /* The best of several rounds; the two checks and all sizes take turns, so that a busy machine slows all of them. */
    for (int round = 0; round < ROUNDS; round++) {
        for (int what = 0; what < 2; what++) {
            for (int i = 0; i < COUNT; i++) {
                const full_state *s = &states[what][i];
                size_t calls = 4000000 / s->used + 1;
                double r = timed(guzbytor_state_check, s, out, calls) / (double)s->used;
                double p = timed(plain_state_check, s, out, calls) / (double)s->used;
                rattle[what][i] = round == 0 || r < rattle[what][i] ? r : rattle[what][i];
                plain[what][i] = round == 0 || p < plain[what][i] ? p : plain[what][i];
            }
        }
    }
    printf("\nstate          n   q   used bytes  ns/byte  plain C  ratio  to (2, 16)\n");
    for (int what = 0; what < 2; what++) {
        for (int i = 0; i < COUNT; i++) {
            double r = rattle[what][i], p = plain[what][i];
            printf("%-13s  %zu %3zu  %11zu  %7.3f  %7.3f  %5.2f  %10.2f\n", NAMES[what], SIZES[i].n, SIZES[i].q, states[what][i].used, r, p, r / p,
                   r / rattle[what][0]);
        }
    }
    return 0;
}
