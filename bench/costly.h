/* The costly events, each at a full state. */
#ifndef COSTLY_H
#define COSTLY_H

#include "trial.h"

typedef struct {
    const char *name;
    trial (*make)(size_t n, size_t q, size_t white);
} costly;

/* The numbers of two of them. */
enum { COSTLY_COUNT = 9, RESEND = 2, END_ALIKE = 4, HOSTILE_COUNT = 3 };

extern const costly COSTLY[COSTLY_COUNT];

/* Those whose cost does not go by what is used. */
extern const costly HOSTILE[HOSTILE_COUNT];

#endif
