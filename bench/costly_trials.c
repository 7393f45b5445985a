/* Writes the costly events at full states as trials, for one_step.c: where no action is white, and where 100 and 60,000 of each creator are; and the
   hostile ones. usage: costly_trials DIRECTORY */
#include "costly.h"
#include "trials.h"

#include <stdio.h>

static const struct {
    size_t n, q;
} SIZES[] = {{2, 16}, {3, 16}, {4, 64}, {8, 256}};

static const size_t WHITES[] = {0, 100, 60000};

enum { MOVE_COUNT = 4, SIZE_COUNT = sizeof SIZES / sizeof SIZES[0], WHITE_COUNT = sizeof WHITES / sizeof WHITES[0] };

int main(int count, char **words) {
    if (count != 2) {
        fprintf(stderr, "usage: costly_trials DIRECTORY\n");
        return 1;
    }
    for (int e = 0; e < COSTLY_COUNT; e++) {
        for (int k = 0; k < SIZE_COUNT * WHITE_COUNT; k++) {
            size_t n = SIZES[k / WHITE_COUNT].n, q = SIZES[k / WHITE_COUNT].q, white = WHITES[k % WHITE_COUNT];
            trial t = COSTLY[e].make(n, q, white);
            write_trial(words[1], COSTLY[e].name, n, q, white, &t);
        }
    }
    /* The same action turns so many white, or none, since the others have told less. */
    for (int k = 0; k < SIZE_COUNT * MOVE_COUNT; k++) {
        size_t n = SIZES[k / MOVE_COUNT].n, q = SIZES[k / MOVE_COUNT].q, part = k % MOVE_COUNT;
        size_t count = part == 0 ? 1 : n * q * part / MOVE_COUNT;
        trial none = telling(n, q, WHITES[1], count, 0), some = telling(n, q, WHITES[1], count, count);
        write_trial(words[1], "no move", n, q, count, &none);
        write_trial(words[1], "move", n, q, count, &some);
    }
    for (int k = 0; k < HOSTILE_COUNT * SIZE_COUNT; k++) {
        size_t n = SIZES[k % SIZE_COUNT].n, q = SIZES[k % SIZE_COUNT].q, white = WHITES[WHITE_COUNT - 1];
        trial t = HOSTILE[k / SIZE_COUNT].make(n, q, white);
        write_trial(words[1], HOSTILE[k / SIZE_COUNT].name, n, q, white, &t);
    }
    return 0;
}
