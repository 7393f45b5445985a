/* A group layer in memory that keeps every duty of an allowed run (crates/replication/specs/Runs/Allowed.antt). Each regular configuration has one
   order of records, in which they were sent; a sender has its own records, the others receive them one by one, in any order.
   - In the regular configuration a server delivers the next record of that order once every member has received it.
   - Members that go on together get one transitional configuration. Before it all of them deliver equally many; in it, all that any of them has
     received, in the one order, but none whose sender's earlier ones are missing: these may have caused it. Only then comes the next regular one.
   A server sends nothing between a transitional and the next regular configuration, so that what its members have received is then settled. */
#ifndef GROUP_H
#define GROUP_H

#include "draws.h"
#include "journal.h"

typedef struct {
    buffer bytes;
    uint8_t sender;
    uint8_t received; /* by this set */
    sending source;
} record;

/* A regular configuration. The first `safe` records have been received by every member. */
typedef struct configuration {
    uint32_t id;
    uint8_t set;
    record *order;
    size_t count;
    size_t room;
    size_t safe;
    struct configuration *older;
} configuration;

/* A transitional configuration, of members that leave `from` together, each with its first `before` records delivered. Once nobody is awaited any
   more, `rest` says which further ones are delivered in it. */
typedef struct transitional {
    configuration *from;
    uint8_t set;
    uint32_t name;
    size_t before;
    uint8_t awaited;
    size_t *rest;
    size_t count;
    struct transitional *older;
} transitional;

/* Where a server is. */
typedef struct {
    configuration *in;     /* the last regular configuration since start or recovery, or NULL */
    transitional *through; /* the transitional one that is agreed on, or NULL */
    int parted;            /* a transitional one has come since */
    size_t delivered;      /* of the regular one's order; after the transitional one, of its rest */
    configuration *next;   /* the regular one to come, or NULL */
} member;

typedef struct {
    uint32_t servers;
    uint32_t count; /* of configurations so far */
    uint32_t salt;
    uint32_t names;
    configuration *configurations;
    transitional *transitionals;
    member members[GUZBYTOR_MOST_SERVERS];
} group;

/* Servers that are up agree on a new regular configuration of this set. */
void group_form(group *g, uint8_t set, draws *d);

/* The record that comes to a server after `ahead` others, or NULL where a configuration comes before it or nothing does. */
const record *group_record(const group *g, uint8_t k, size_t ahead);

/* The record that comes next has come. */
void group_delivered(group *g, uint8_t k);

/* The transitional configuration that comes next, if one does, has come: it, or NULL. */
const transitional *group_parts(group *g, uint8_t k);

/* The same for the regular one. */
const configuration *group_joins(group *g, uint8_t k);

/* A transitional configuration with no regular one before it, which nothing forbids: its name. */
uint32_t group_parts_alone(group *g, uint8_t k);

/* A server sends a record in the configuration that it has, as the record `number` of the entry at `place`. */
void group_send(group *g, uint8_t k, const uint8_t *bytes, size_t length, size_t place, uint32_t number);

/* A server receives a record that one of `heard` has, the earliest that it lacks or any; 0 where there is none. */
int group_receive(group *g, uint8_t k, uint8_t heard, int any, draws *d);

/* A server goes down or starts anew. It may still take the configuration that was to come. */
void group_falls(group *g, uint8_t k, int keeps_next);

/* The configuration that a server is in or goes to, or NULL. */
const configuration *group_goal(const group *g, uint8_t k);

/* An id that no regular configuration has. */
uint32_t group_new_id(group *g);

void group_end(group *g);

static inline int has(uint8_t set, uint8_t k) { return set >> k & 1; }

static inline uint8_t only(uint8_t k) { return (uint8_t)(1u << k); }

#endif
