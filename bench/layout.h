/* The state's buffer (docs/LAYOUT.md), for the C files of this folder. */
#ifndef BENCH_LAYOUT_H
#define BENCH_LAYOUT_H

#include "guzbytor_layout.h"

#include <stddef.h>
#include <stdint.h>

/* The payloads of full states, and the bytes of put_action. */
enum { PAYLOAD = 40, ACTION = ACTION_SIZE + PAYLOAD };

/* The highest index, and the longest green list. */
enum { MOST_NUMBER = 65535, MOST_LENGTH = GUZBYTOR_MOST_SERVERS * MOST_NUMBER };

/* A state's buffer with its required length, the outgoing buffer's, and how many bytes of the state are in use. */
typedef struct {
    uint8_t *bytes;
    size_t length;
    size_t out_length;
    size_t used;
} full_state;

/* What is full: not both at once, for an own action leaves the own list when it enters the queue. */
typedef enum {
    FULL_QUEUE, /* n q actions in the queue; then the own list is empty */
    FULL_OWN    /* q actions on the own list, half of them not yet sent, and every other server's actions in the queue */
} fullness;

/* Where a State's record with n cuts has its green length, and its yellow ids. */
static inline size_t rest_at(size_t n) { return STATE_CUTS + CUT_SIZE * n; }

static inline size_t ids_at(size_t n) { return rest_at(n) + REST_SIZE; }

static inline size_t state_slot(size_t n, size_t q) { return ids_at(n) + ID_SIZE * n * q; }

/* The sections of the image, each behind the one before it. */
static inline size_t cuts_at(void) { return HEADER_SIZE; }

static inline size_t noted_at(size_t n) { return cuts_at() + CUT_SIZE * n; }

static inline size_t states_at(size_t n) { return noted_at(n) + NOTED_SIZE * n; }

static inline size_t yellow_at(size_t n, size_t q) { return states_at(n) + n * state_slot(n, q); }

static inline size_t own_at(size_t n, size_t q) { return yellow_at(n, q) + ID_SIZE * n * q; }

static inline size_t queue_at(size_t n, size_t q) { return own_at(n, q) + SLOT_SIZE * q; }

static inline size_t state_length(size_t n, size_t q) { return queue_at(n, q) + SLOT_SIZE * n * q; }

static inline size_t out_length(size_t n, size_t q) { return 2 * MOST_RETRANSMISSION * n * q; }

/* The number v in `width` bytes, big-endian. */
void put(uint8_t *b, size_t width, uint32_t v);

/* An action with its payload, whose creator then had so many entries green and white: in a slot zeros stand behind it. */
void put_action(uint8_t *b, size_t creator, size_t index, size_t told);

/* A state in Exchange_actions, in which `white` actions of each creator are white and the next q ones held: every State is in, each with n q yellow
   ids, and one retransmission is to come. Every server has told the white length, so that what tells no higher one turns nothing white. */
full_state make_full_state(size_t n, size_t q, size_t white, fullness what);

/* An OR of the used bytes, in one pass: of a state, of a register. */
uint8_t or_of_used(const uint8_t *state);
uint8_t or_of_pegs(const uint8_t *pegs);

/* Rows 7 and 8 in plain C: the answer of guzbytor_state_check. */
uint32_t plain_state_check(const uint8_t *state, size_t state_length, const uint8_t *out, size_t out_length);

#endif
