/* How names and lengths are shown. */
#ifndef SHOWN_H
#define SHOWN_H

#include "pegs.h"

#include <stdio.h>

enum { MOST_SHOWN = 2 * GUZBYTOR_MOST_NAME + 3, MOST_METRES = 32 };

static inline int is_printable(const uint8_t *slot) {
    for (int i = 0; i < slot[0]; i++) {
        if (peg_name(slot)[i] < ' ' || peg_name(slot)[i] > '~') {
            return 0;
        }
    }
    return 1;
}

/* A name: text between quotes or not, if it is printable, and else hexadecimal. */
static inline const char *shown_name(const uint8_t *slot, const char *quote) {
    static char shown[MOST_SHOWN];
    if (is_printable(slot)) {
        snprintf(shown, sizeof shown, "%s%.*s%s", quote, slot[0], (const char *)peg_name(slot), quote);
    } else {
        for (int i = 0; i < slot[0]; i++) {
            snprintf(shown + 2 * i, 3, "%02x", peg_name(slot)[i]);
        }
    }
    return shown;
}

static inline const char *metres(int64_t millimetres, char *text) {
    uint64_t size = millimetres < 0 ? -(uint64_t)millimetres : (uint64_t)millimetres;
    snprintf(text, MOST_METRES, "%s%llu.%03llu", millimetres < 0 ? "-" : "", (unsigned long long)size / 1000, (unsigned long long)size % 1000);
    return text;
}

#endif
