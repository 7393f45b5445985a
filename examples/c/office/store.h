/* What a depot stores: its image, state and register as one, and its history. The history is a file that grows; the image is a file that is replaced,
   and says how much of the history goes with it. What the history's file has behind that is of a store that was cut: the next one writes over it. */
#ifndef STORE_H
#define STORE_H

#include "history.h"

typedef struct {
    const char *folder;
    int synced; /* 0: nothing waits for the disk; for trials only */
    uint32_t servers;
    uint32_t quota;
} store;

/* An image for so many servers and this quota: the state's buffer, and behind it the register's. */
buffer new_image(uint32_t servers, uint32_t quota);

/* Its two parts, as they are lent to the engine. */
buffer state_of(buffer image);
buffer pegs_of(buffer image);

/* Makes the folder, if it is not there. */
void store_open(const store *s);

/* Stores both: returns once they are on the disk. What was stored before is whole until then. */
void store_all(const store *s, uint8_t me, buffer image, history *h);

/* What a power cut in the middle of storing leaves: of what is to be written `length` bytes; what was stored before is whole. */
void store_cut(const store *s, uint8_t me, buffer image, const history *h, size_t length);

/* Reads both as they were stored last. 0, and a message, where they are not whole, hold no well-formed state or register, or are of other depots; the
   history is empty then. */
int store_load(const store *s, uint8_t me, buffer image, history *h);

#endif
