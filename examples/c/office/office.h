/* Depots in one process, each with its daemon, over one group layer. */
#ifndef OFFICE_H
#define OFFICE_H

#include "crews.h"
#include "draws.h"
#include "group.h"
#include "journal.h"
#include "store.h"

/* Requests that a depot takes in its life. */
enum { MOST_REQUESTS = 65535 };

/* A depot's daemon: the buffers that it lends the engine, its history, and the requests that were answered 0, each a length and its bytes, in the
   order of their numbers: no crash may lose one. State and register are the two parts of one image; they and the history are stored as one. */
typedef struct {
    buffer image;
    buffer state;
    buffer pegs;
    buffer out;
    history history;
    int up;
    uint32_t green;   /* actions, as the answers count them .. */
    uint32_t refused; /* .. and operations of them that the register refused */
    uint32_t stored;  /* the green length in the store */
    uint32_t told;    /* the green length that the last own entry or State told */
    uint32_t sent;    /* the index of the last own action that was put out */
    uint32_t asked;
    uint32_t came[GUZBYTOR_KIND_SETUP]; /* events of each kind since the last regular configuration or recovery, that one too */
    uint8_t (*payloads)[1 + GUZBYTOR_MOST_PAYLOAD];
} depot;

typedef struct {
    uint64_t seed;
    uint32_t servers;
    uint32_t quota;
    draws draws;
    crews crews;
    store store;
    journal journal;
    group group;
    uint32_t crash_in; /* one event in so many has a crash behind it; 0: none */
    int stores;        /* further stores are drawn */
    int careful;       /* daemons see to it that places come free (requests.c) */
    size_t crashes;
    size_t bursts;     /* of two events or more */
    size_t quota_used; /* requests that were answered 3 */
    depot depots[GUZBYTOR_MOST_SERVERS];
} office;

/* Says what is wrong, and ends with status 1. */
_Noreturn void wrong(const office *o, const char *format, ...);

/* ---- depot.c: what a daemon does */

/* Lends the buffers, makes the start and stores it. */
void depot_start(office *o, uint8_t k);

/* An event comes to a depot that is up; the number that it is answered with. A crash may follow it. */
uint32_t depot_takes(office *o, const event *e);

/* The duties after a step that was answered so: read what turned green, store where the word says, and then send. A crash may follow. */
void depot_finishes(office *o, const event *e, guzbytor_register_step_answer a);

/* The daemon stores between two events. */
void depot_stores(office *o, uint8_t k);

void depot_crashes(office *o, uint8_t k);

/* The daemon starts again from its stored image, after a crash or without one. */
void depot_recovers(office *o, uint8_t k);

/* What the engine says of a depot's state. */
guzbytor_summary_answer depot_summary(const office *o, uint8_t k);

/* ---- requests.c */

/* So many requests are taken before a place comes free. */
uint32_t free_places(const office *o, uint8_t k);

/* A crew asks; the number that it is answered with. */
uint32_t crew_comes(office *o, uint8_t k);

/* Whether the daemon lets a crew ask. */
int crew_may_come(const office *o, uint8_t k);

/* A careful daemon tells its green length, if the others wait for that; whether it did. */
int depot_tells(office *o, uint8_t k);

/* An event was answered so and left this green length: a request that was taken is kept, and what a request or State told is noted. */
void note_request(office *o, const event *e, guzbytor_register_step_answer a, uint32_t green);

/* Own actions are put out in their order, one time only. */
void note_put(office *o, uint8_t k, const uint8_t *put);

/* In memory, and in the store that a recovery is given: every request that was answered 0 is numbered. Those that have not come back are
   on the own list, and of these the ones that were not put out are unsent; where requests are sent there are none. */
void test_requests(const office *o, uint8_t k, guzbytor_summary_answer a);

/* ---- deliver.c: what the group layer has for a depot */

/* The record or configuration that comes next; 0 where there is none. */
int something_comes(office *o, uint8_t k);

/* A transitional configuration before any regular one, which nothing forbids. */
void parts_alone(office *o, uint8_t k);

/* ---- hostile.c */

/* An event comes that no group layer should bring, or that does not read, or the buffers are short or damaged, or a reading asks for what is not
   there. It must be refused. */
void depot_refuses(office *o, uint8_t k);

/* ---- meeting.c: how far a meeting is */

/* Counts an event that was taken. */
void note_came(office *o, const event *e);

/* What the engine says of a meeting is what has come. */
void test_meeting(const office *o, uint8_t k, guzbytor_summary_answer a);

/* Prints for each depot in a meeting that has not ended what has come of what it waits for; how many depots these are. */
uint32_t depots_wait(const office *o);

/* ---- trials.c */

/* Lines drop and come back, depots crash and recover, requests come: so many moves, by the seed. Where it stops there, what still gets through on
   the lines as they are comes, and no configuration is formed any more. */
void trial(office *o, uint32_t moves, int stops);

/* All lines are up and all depots recover, until nothing moves. */
void trial_ends(office *o);

/* Each depot's crews ask until so many more are taken: half of them with all in touch, some with lines down, the rest with all in touch again. */
void trial_goes_on(office *o, uint32_t each);

/* ---- greens.c: what must hold */

/* The daemon reads the green entries behind its history; what the engine says of its state. None of them is gone: what is white was green in every
   depot's store before the event that turned it white. */
guzbytor_summary_answer depot_reads(office *o, uint8_t k);

/* The register in an image is the fold, in plain C, of the history that goes with it. How many of its operations are refused. */
uint32_t register_follows(const office *o, uint8_t k, buffer image, const history *h);

/* Green lists agree now, white part included: of any two depots the shorter begins the longer. The list of a depot that is down is the stored one,
   and so is its register: each follows its green list, and where the lists are equally long the registers have the same bytes in use. Primary
   components agree too. */
void depots_agree(const office *o);

/* All depots are in Reg_prim with equal green lists, which are all requests that were ever answered 0, and equal registers; nothing is red or on an
   own list. */
void depots_equal(const office *o);

#endif
