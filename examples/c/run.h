/* A recorded run: a file with a set-up record, then server byte and event, repeated. */
#ifndef RUN_H
#define RUN_H

#include "guzbytor.h"

#include <stdio.h>
#include <stdlib.h>
#include <string.h>

/* The set-up record: servers (1 byte) and quota (2) behind its frame. */
enum { SETUP_SERVERS = GUZBYTOR_AT_BODY, SETUP_QUOTA = SETUP_SERVERS + 1, SETUP_LENGTH = SETUP_QUOTA + 2 };

typedef struct {
    uint8_t *bytes;
    size_t length;
} buffer;

static inline void *grown(void *old, size_t size) {
    void *p = realloc(old, size > 0 ? size : 1);
    if (p == NULL) {
        fprintf(stderr, "no memory\n");
        exit(1);
    }
    return p;
}

static inline buffer lent(size_t length) { return (buffer){grown(NULL, length), length}; }

static inline buffer copied(buffer b) {
    buffer copy = lent(b.length);
    memcpy(copy.bytes, b.bytes, b.length);
    return copy;
}

/* The length of the record that b begins with: two length bytes and what they count. */
static inline size_t record_length(const uint8_t *b) {
    return 2 + ((size_t)b[0] << 8 | b[1]);
}

static inline buffer read_file(const char *name) {
    FILE *f = fopen(name, "rb");
    long length = -1;
    if (f != NULL && fseek(f, 0, SEEK_END) == 0) {
        length = ftell(f);
    }
    if (length < 0 || fseek(f, 0, SEEK_SET) != 0) {
        fprintf(stderr, "%s cannot be read\n", name);
        exit(1);
    }
    buffer b = lent((size_t)length);
    if (fread(b.bytes, 1, b.length, f) != b.length) {
        fprintf(stderr, "%s cannot be read\n", name);
        exit(1);
    }
    fclose(f);
    return b;
}

static inline uint32_t setup_quota(const uint8_t *b) { return (uint32_t)b[SETUP_QUOTA] << 8 | b[SETUP_QUOTA + 1]; }

/* The set-up record's number: 1 for its form, and else what the lengths are answered with. */
static inline uint32_t set_up(buffer run, guzbytor_lengths_answer *lengths) {
    const uint8_t *b = run.bytes;
    if (run.length < SETUP_LENGTH || record_length(b) != SETUP_LENGTH || b[GUZBYTOR_AT_VERSION] != GUZBYTOR_VERSION || b[GUZBYTOR_AT_KIND] != GUZBYTOR_KIND_SETUP) {
        return 1;
    }
    *lengths = guzbytor_lengths(b[SETUP_SERVERS], setup_quota(b));
    return lengths->number;
}

#endif
