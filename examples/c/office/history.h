/* A daemon's history: every green entry that it has read, white ones too, which are gone from the state. */
#ifndef HISTORY_H
#define HISTORY_H

#include "../run.h"

/* An entry: creator (1 byte), index (2), payload length (1), payload. */
enum { ENTRY_FRONT = 4 };

typedef struct {
    uint8_t *bytes; /* entries, one behind another */
    size_t length;
    size_t room;
    uint32_t count;
    uint64_t sum;        /* the checksum of the bytes */
    size_t stored;       /* so many bytes of them are in the store */
    uint32_t white;      /* the first ones, .. */
    size_t white_length; /* .. in so many bytes .. */
    uint32_t own_white;  /* .. and of these the depot's own */
} history;

static inline uint32_t entry_index(const uint8_t *entry) { return (uint32_t)entry[1] << 8 | entry[2]; }

static inline size_t entry_length(const uint8_t *entry) { return ENTRY_FRONT + (size_t)entry[ENTRY_FRONT - 1]; }

/* The checksum (FNV-1a) of what has the sum `sum` and then these bytes. */
uint64_t summed(uint64_t sum, const uint8_t *bytes, size_t length);

history history_start(void);

/* These entries come behind the others; 0 where the last one is not whole. */
int history_add(history *h, const uint8_t *entries, size_t length);

/* The first `white` entries, at least as many as before, are white; `me` is the depot. */
void history_whiten(history *h, uint32_t white, uint8_t me);

#endif
