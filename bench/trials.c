#include "trials.h"

#include <stdio.h>
#include <stdlib.h>

void write_trial(const char *directory, const char *event, size_t n, size_t q, size_t white, const trial *t) {
    char path[512];
    snprintf(path, sizeof path, "%s/%s, n %zu, q %zu, %zu", directory, event, n, q, white);
    FILE *f = fopen(path, "wb");
    if (f == NULL || fwrite(t->state.bytes, 1, t->state.length, f) != t->state.length || fwrite(t->event, 1, t->event_length, f) != t->event_length ||
        fclose(f) != 0) {
        fprintf(stderr, "%s cannot be written\n", path);
        exit(1);
    }
    printf("%s, n %zu, q %zu, %zu\n", event, n, q, white);
}
