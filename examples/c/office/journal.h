/* What is written of a run: the input of `replay`, the lines that `replay` prints for it, and a journal for the audit (docs/AUDIT.md). */
#ifndef JOURNAL_H
#define JOURNAL_H

#include "../run.h"

/* A record that was sent: the place of the entry that sent it, which of its records it is, and where it stands in its configuration's one order. */
typedef struct {
    size_t place;
    uint32_t number;
    size_t position;
} sending;

/* An event at a depot, and what the group layer chose with it. */
typedef struct {
    uint8_t server;
    const uint8_t *bytes;
    size_t length;
    int delivers;   /* a record that was sent: */
    sending source; /* which one */
    uint32_t name;  /* of the transitional configuration that comes, or 0 */
} event;

/* Files, each open or NULL; how many entries and events there are so far. */
typedef struct {
    FILE *run;
    FILE *lines;
    FILE *journal;
    size_t entries;
    size_t events;
} journal;

void journal_begin(journal *j, uint32_t servers, uint32_t quota);

/* An event that was answered with `returned` and put out `put` records, of which the first `sent` were sent; it left this state. */
void journal_event(journal *j, const event *e, uint32_t returned, uint32_t put, uint32_t sent, buffer state);

void journal_crash(journal *j, uint8_t server);

/* A store between two events. */
void journal_store(journal *j, uint8_t server);

/* Closes the files; 0 where one of them is not whole. */
int journal_end(journal *j);

#endif
