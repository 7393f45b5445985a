/* States, and the events that they get. */
#ifndef TRIAL_H
#define TRIAL_H

#include "layout.h"

/* Sender and configuration id; configuration id and set. */
enum { CPC_BODY = 1 + 4, REGULAR_BODY = 4 + 1 };

/* A state, the event that it gets, and what must come of it. */
typedef struct {
    full_state state;
    uint8_t *event;
    size_t event_length;
    uint8_t mode_after;
    size_t sent_after;
} trial;

static inline uint8_t everyone(size_t n) { return (uint8_t)((1u << n) - 1); }

uint32_t number(const uint8_t *b, size_t width);

uint8_t *in_memory(size_t length);

/* How many bytes of the state are in use. */
size_t used_bytes(const uint8_t *b);

/* An event of a kind with room for its body. */
trial begun(full_state s, uint8_t kind, size_t body, uint8_t mode_after, size_t sent_after);

/* The last CPC comes: half of n q red actions are on the yellow list. All turn green. Of each creator `white` actions are white, here and below. */
trial install(size_t n, size_t q, size_t white);

/* In Reg_prim the last action of all comes, all others being green. It tells that its creator has `count` green that are not white; all other servers
   have told `others`: the fewer of the two turn white. */
trial telling(size_t n, size_t q, size_t white, size_t count, size_t others);

#endif
