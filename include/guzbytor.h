/* The engine for C: one server's part of the replication of a register, and the register of pegs that comes of it. Link libguzbytor.a (scripts/dist.sh
   makes it, with this header); README.md, 'Call it from C' and 'Keep the register', says what a daemon does with it, docs/RECORDS.md what the bytes of
   events and records are.

   - A buffer is a pointer and its length in bytes. It needs no alignment. One of length 0 may be NULL. A longer one than asked for is allowed: what
     lies behind the length that is asked for is neither read nor written.
   - The buffers of one call may not overlap.
   - There is no state but in the buffers: calls over different buffers may run at the same time in different threads; two calls over one buffer may not,
     unless both only read it.
   - No function allocates, blocks, calls back or fails but by the number that it returns. A call takes 21 KiB of stack at most (20,664 bytes measured by
     bench/stack.c, not proved): lend a thread that calls 32 KiB at least. */
#ifndef GUZBYTOR_H
#define GUZBYTOR_H

#include <stddef.h>
#include <stdint.h>

#ifdef __cplusplus
extern "C" {
#endif

/* Returned numbers. A refused event, state or buffer leaves everything that was lent as it was. What a daemon does: */
enum {
    GUZBYTOR_TAKEN = 0,         /* store if the store word is 1, and wait for it; then send the records, in order, before the next event */
    GUZBYTOR_BAD_RECORD = 1,    /* bad length, version or kind: pass over the event and log it; the group layer brought what no engine wrote */
    GUZBYTOR_OUT_OF_RANGE = 2,  /* a number, set or list is out of range: as 1; of a start, a reading or lengths: the caller's own numbers are wrong */
    GUZBYTOR_QUOTA_USED = 3,    /* a request, and a quota of this server's own entries is not white yet: tell the crew to come back; with 65,535
                                   requests numbered it takes none any more, for good */
                                /* 4 is reserved, and never returned (docs/RECORDS.md) */
    GUZBYTOR_NOT_NOW = 5,       /* an event that cannot come in this state: a duty of the group layer was broken (docs/GROUP-LAYER.md); log it */
    GUZBYTOR_NOT_FROM_HERE = 6, /* a sender outside the configuration, another configuration's id, or a second State or CPC: as 5 */
    GUZBYTOR_SHORT_BUFFER = 7,  /* a buffer is shorter than guzbytor_lengths or guzbytor_register_length asks for: a mistake of the daemon's */
    GUZBYTOR_BAD_STATE = 8      /* the state's buffer holds no state of this layout, or the register's holds no register: it was damaged, or another
                                   engine stored it; stop this server */
};

/* Numbers of an operation on the register. They refuse no event: a refused operation stays in the green list and leaves the register as it was, at every
   server alike. Tell the crew. */
enum {
    GUZBYTOR_PEG_THERE = 9,      /* a set, and the name is there: move it, or retire it first */
    GUZBYTOR_PEG_NOT_THERE = 10, /* a move or retire, and the name is not there */
    GUZBYTOR_NO_OPERATION = 11,  /* the payload is no operation; tested before 9, 10 and 13 */
    GUZBYTOR_REGISTER_FULL = 13  /* a set of a name that is not there, and GUZBYTOR_MOST_PEGS stand: retire one first */
};

/* The number of a question on the register, behind 7 and 8. */
enum {
    GUZBYTOR_BAD_RECTANGLE = 12 /* a rectangle whose west exceeds its east, or its south its north: the caller's own numbers are wrong */
};

/* Written by scripts/generate.py from here .. */

/* The eight states of a server. */
enum {
    GUZBYTOR_NON_PRIM = 0,
    GUZBYTOR_REG_PRIM = 1,
    GUZBYTOR_TRANS_PRIM = 2,
    GUZBYTOR_EXCHANGE_STATES = 3,
    GUZBYTOR_EXCHANGE_ACTIONS = 4,
    GUZBYTOR_CONSTRUCT = 5,
    GUZBYTOR_NO = 6,
    GUZBYTOR_UN = 7
};

/* The frame of a record: two length bytes, which count what follows them, version and kind; then its body. */
enum {
    GUZBYTOR_AT_LENGTH = 0,
    GUZBYTOR_AT_VERSION = 2,
    GUZBYTOR_AT_KIND = 3,
    GUZBYTOR_AT_BODY = 4
};

/* The version of records, and their kinds. */
enum {
    GUZBYTOR_VERSION = 2,
    GUZBYTOR_KIND_ACTION = 1,
    GUZBYTOR_KIND_RETRANSMISSION = 2,
    GUZBYTOR_KIND_STATE = 3,
    GUZBYTOR_KIND_CPC = 4,
    GUZBYTOR_KIND_REGULAR = 5,
    GUZBYTOR_KIND_TRANSITIONAL = 6,
    GUZBYTOR_KIND_REQUEST = 7,
    GUZBYTOR_KIND_RECOVERY = 8,
    GUZBYTOR_KIND_SETUP = 9
};

/* Limits. */
enum {
    GUZBYTOR_FEWEST_SERVERS = 2,
    GUZBYTOR_MOST_SERVERS = 8,
    GUZBYTOR_LEAST_QUOTA = 1,
    GUZBYTOR_MOST_QUOTA = 256,
    GUZBYTOR_MOST_PAYLOAD = 48
};

/* The longest green entry that a reading puts. */
enum {
    GUZBYTOR_MOST_ENTRY = 52
};

/* Operations on the register: a payload's first byte. */
enum {
    GUZBYTOR_SET = 1,
    GUZBYTOR_MOVE = 2,
    GUZBYTOR_RETIRE = 3
};

/* The register's buffer, and its limits. */
enum {
    GUZBYTOR_MOST_PEGS = 4096,
    GUZBYTOR_MOST_NAME = 24,
    GUZBYTOR_REGISTER_COUNT_SIZE = 2,
    GUZBYTOR_REGISTER_AT_NAME = 1,
    GUZBYTOR_REGISTER_AT_PLACE = 25,
    GUZBYTOR_REGISTER_PEG_SIZE = 33,
    GUZBYTOR_REGISTER_LENGTH = 135170
};

/* .. to here. */

/* What guzbytor_lengths answers: GUZBYTOR_TAKEN and the required lengths of the state's and the outgoing buffer, or GUZBYTOR_OUT_OF_RANGE and zeros where
   servers or quota is out of range.
   The quota is how many of a server's own entries may be without being white: 1 to 256, the same at all servers, and never changed. An entry that is green
   on every server, as far as this one knows, becomes white: its place is used again. With a quota of own entries that are not white a request gets
   GUZBYTOR_QUOTA_USED; one is taken again when a place is free. So while a server is away the others fill their quota and wait for it. A server takes 65,535
   requests in its life. */
typedef struct {
    uint32_t number;
    uint32_t state;
    uint32_t out;
} guzbytor_lengths_answer;

guzbytor_lengths_answer guzbytor_lengths(uint32_t servers, uint32_t quota);

/* Makes the start of server `me` in its buffer and returns 0; returns 7 where the buffer is too short and 2 where a number is out of range. Once in the
   life of a server: started anew it would number its requests from 1 again. The quota cannot be changed afterwards. */
uint32_t guzbytor_start(uint8_t *state, size_t state_length, uint32_t servers, uint32_t quota, uint32_t me);

/* The number returned, the store word (1: store the state before anything is sent), and how many bytes of records the outgoing buffer
   begins with. */
typedef struct {
    uint32_t number;
    uint32_t store;
    uint32_t sent;
} guzbytor_step_answer;

/* One event at one server: number 0 with the new state and the records put out, or the number that the event or the buffers are refused with.
   A recovery is given the image stored last. A request that is taken gets its index and sets the store word, in every state: once it is stored no
   crash loses it. */
guzbytor_step_answer guzbytor_step(uint8_t *state, size_t state_length, const uint8_t *event, size_t event_length, uint8_t *out, size_t out_length);

/* The number of the event that a burst stopped at (0: none was refused); of the last event taken the store word, and how many bytes of records the
   outgoing buffer begins with (both 0 where none was taken); how many events and bytes were taken. */
typedef struct {
    uint32_t number;
    uint32_t store;
    uint32_t sent;
    size_t events;
    size_t bytes;
} guzbytor_burst_answer;

/* Many events at one server, one behind another in one buffer, each as long as its length bytes say: what guzbytor_step does with each of them in
   turn, but the state is checked once, and that check is most of what an action costs. Use it where several events wait, as actions do in Reg_prim;
   for one event use the step. Events are taken until one stores or puts out records (the last one taken), until one is refused, or to the end. Store
   and send as after a step; then go on behind the `bytes` taken:
   - number 0, store or sent not 0: with a further burst.
   - number 0, both 0, and bytes left: an event that is cut short, which waits for its rest, or a recovery, which is given the image stored last and
     stands first in a burst or goes to the step.
   - another number: the next event was refused with it and is not taken; all before it stay taken. Pass over it by its length bytes; one that is cut
     short gets 1 where it stands first. 7 and 8 refuse the buffers, before any event and for no events too. */
guzbytor_burst_answer guzbytor_burst(uint8_t *state, size_t state_length, const uint8_t *events, size_t events_length, uint8_t *out, size_t out_length);

/* Whether a step can begin: 7 where a buffer is too short, 8 where the state's buffer holds no well-formed state, as one stored by an engine
   of another layout (docs/LAYOUT.md), and else 0. It changes neither buffer, and every other function does it by itself. */
uint32_t guzbytor_state_check(const uint8_t *state, size_t state_length, const uint8_t *out, size_t out_length);

/* The state at a glance. Sets are bytes: bit k is server k. */
typedef struct {
    uint32_t number;  /* 0; or 7 or 8, and then all else is 0 */
    uint32_t servers, quota, me;
    uint32_t state;                               /* GUZBYTOR_NON_PRIM to GUZBYTOR_UN */
    uint32_t configured;                          /* 1: a regular configuration has come since start or recovery .. */
    uint32_t configuration_id, configuration_set; /* .. this one; else 0 */
    uint32_t transitional;                        /* 1: a transitional one has come since then .. */
    uint32_t transitional_set;                    /* .. of these; else 0 */
    uint32_t green;                               /* entries that have their lasting place, white ones included */
    uint32_t white;                               /* the first ones of these: green on every server, and not in the state any more */
    uint32_t red;                                 /* entries that are known here and have none yet */
    uint32_t numbered;                            /* own requests taken so far, each with its index and stored, of 65,535 */
    uint32_t on_own_list;                         /* of these, on the own list: stored, and not yet come back */
    uint32_t unsent;                              /* of these, not yet sent: they are on reaching Reg_prim, or Non_prim at the end of an exchange */
    uint32_t primary_index, primary_attempt, primary_set; /* the last primary component known here */
    uint32_t attempt;
    uint32_t marked;                              /* 1: marked by an attempt at a primary component whose end is not known here */
    /* How far a meeting is: what has come of what this server waits for, one behind the other; with all of it a server in Construct goes to Reg_prim.
       m is how many members configuration_set has. Each count is 0 in the states that are not named. */
    uint32_t states_in;                           /* States, of m: in Exchange_states; Exchange_actions has all m */
    uint32_t resent_in, resent_planned;           /* retransmissions, and of how many planned: in Exchange_actions */
    uint32_t cpcs_in;                             /* CPCs, of m: in Construct, No and Un */
} guzbytor_summary_answer;

guzbytor_summary_answer guzbytor_summary(const uint8_t *state, size_t state_length);

/* Number 0; how many entries are green in all, and how many of these, the first ones, are white; how many were put, and in how many bytes. Or 7, 8 or 2, in
   this order, and zeros: a buffer is too short, the state's buffer holds no well-formed state, `from` exceeds the green length or is below the white length:
   the entries asked for are not there, and later ones must not be taken for them. */
typedef struct {
    uint32_t number;
    uint32_t green;
    uint32_t white;
    uint32_t entries;
    uint32_t bytes;
} guzbytor_green_entries_answer;

/* The green entries behind the first `from`, in their order, one behind another into `entries`, as many as fit whole. An entry is creator (1 byte), index
   (2, the high byte first), payload length (1) and payload: GUZBYTOR_MOST_ENTRY bytes at most, and a shorter buffer gets 7. So at least one is put where
   `from` is below the green length; read on from `from` + `entries`. The state is checked once in a call, however many entries are put: lend room for
   what is wanted at once.
   What an event turned green: note the green length before it (that of the last summary or reading); the entries behind it are those, in their order. In an
   allowed run a daemon that asks so after each event is never refused; nor one that asks after each burst.
   White entries are gone from the state. A daemon that wants the whole history keeps what it reads, beside the state and stored with it, as the register is
   kept; one that asks from 0 after a restart gets 2 once anything is white. */
guzbytor_green_entries_answer guzbytor_green_entries(const uint8_t *state, size_t state_length, uint32_t from, uint8_t *entries, size_t entries_length);

/* What green is worth. A red entry is known. A green one keeps its place while one server that has it green stays up or has it green in its store. So what
   is green in a stored image keeps its place whatever happens, and whoever answers a crew on green, or prints a deed, stores the state first. A daemon may
   store after any event, whatever the store word says. Green entries that no store has may come back in another order where all servers that have them green
   lose power. */

/* ---- the register of pegs

   It is what the payloads of the green actions make, each an operation on one peg, in the order of the green list, from the empty register on. A payload
   is an operation:
     operation (1 byte: GUZBYTOR_SET, GUZBYTOR_MOVE, GUZBYTOR_RETIRE), name length (1: 1 to GUZBYTOR_MOST_NAME), name, and for set and move easting and
     northing (4 bytes each: millimetres, two's complement, the high byte first). Nothing may follow.
   A name is any bytes, and counts whole: with a zero byte behind it, it is another one.

   The register's buffer: how many pegs (GUZBYTOR_REGISTER_COUNT_SIZE bytes, the high byte first), then a slot of GUZBYTOR_REGISTER_PEG_SIZE bytes for each,
   by byte order of name, a beginning before what it begins: name length, name (from GUZBYTOR_REGISTER_AT_NAME on, zeros behind it), easting and northing
   (from GUZBYTOR_REGISTER_AT_PLACE on, as in the payload). So equal registers have equal bytes, as far as they are in use. What lies behind the last peg is
   never read; whoever lists the pegs reads the buffer itself. */

/* The required length of a register's buffer, GUZBYTOR_REGISTER_LENGTH, whatever servers and quota are. */
uint32_t guzbytor_register_length(void);

/* Makes the empty register and returns 0; returns 7 where the buffer is too short. It writes the count and leaves what lies behind it. */
uint32_t guzbytor_register_start(uint8_t *pegs, size_t pegs_length);

/* One operation on a register, for tools: 0 where it is taken, or 7, 8, 11, 9, 13, 10, tested in this order, and nothing has changed. A daemon leaves it
   to guzbytor_register_step, which takes every green action once and in its order: whoever applies payloads beside it has another register than the
   others. */
uint32_t guzbytor_register_apply(uint8_t *pegs, size_t pegs_length, const uint8_t *payload, size_t payload_length);

/* Number 0, with found 1 where the name is there: which slot it has, from 0 on, and its place in millimetres. Else zeros behind the number, which is 7 or
   8 where the buffer is refused, and 0 where the name is not there, as none longer than GUZBYTOR_MOST_NAME is. */
typedef struct {
    uint32_t number;
    uint32_t found;
    uint32_t index;
    int32_t easting, northing;
} guzbytor_register_find_answer;

guzbytor_register_find_answer guzbytor_register_find(const uint8_t *pegs, size_t pegs_length, const uint8_t *name, size_t name_length);

/* ---- pegs in the plane

   All numbers are millimetres, over the whole range of their type; distances are exact, and nothing wraps. The register that is asked is never changed.
   Each call costs the register's check and one pass over its pegs. */

/* The pegs inside a rectangle, edges included, by byte order of name: a register in `answer`, which can be asked again, listed and printed as any other.
   0; or 7 where `pegs` or `answer` is shorter than GUZBYTOR_REGISTER_LENGTH, 8 where `pegs` holds no register, 12 where west exceeds east or south exceeds
   north, tested in this order, and `answer` is as it was. What `answer` held before is not read; what lies behind its last peg stays. */
uint32_t guzbytor_register_rectangle(const uint8_t *pegs, size_t pegs_length, int32_t west, int32_t south, int32_t east, int32_t north, uint8_t *answer,
                                     size_t answer_length);

/* The pegs within `radius` of a point, at that distance too, in the same way: 0, 7 or 8. */
uint32_t guzbytor_register_radius(const uint8_t *pegs, size_t pegs_length, int32_t easting, int32_t northing, uint32_t radius, uint8_t *answer,
                                  size_t answer_length);

/* The peg nearest to a point; of equally near ones that with the smallest name. Answered as a name that was searched: number 0 and found 1 with its slot and
   place, or found 0, which only the empty register gets, or 7 or 8. */
guzbytor_register_find_answer guzbytor_register_nearest(const uint8_t *pegs, size_t pegs_length, int32_t easting, int32_t northing);

/* What guzbytor_step answers, how many actions the event turned green, and how many of these are operations that the register refused (9, 10, 11, 13). */
typedef struct {
    uint32_t number;
    uint32_t store;
    uint32_t sent;
    uint32_t greened;
    uint32_t refused;
} guzbytor_register_step_answer;

/* One event at one server that keeps a register beside its state: guzbytor_step, and then every action that the event turned green is applied to the
   register, in their order, be it one action or the 2,048 of an Install; each buffer is checked once. 7, then 8, are tested over state, register and
   outgoing buffer together, before the event's own numbers; with a number that is not 0 all three are as they were. An operation that is refused
   refuses no event: number 0, and `refused` counts it. (Which ones, and with what numbers: guzbytor_register_apply on a copy of the register as it
   was, of the green entries behind the old green length.)
   The register belongs to the state beside it, and goes with it everywhere:
   - The store word covers both. Store them as one image, so that no crash leaves the one without the other, and wait; then send.
   - A daemon that stores between events, as before it answers a crew on green, stores both.
   - A recovery is given both as they were stored last, each in its buffer.
   - A server that has taken an event by guzbytor_step or guzbytor_burst has a register that lacks what this turned green: use one or the other. */
guzbytor_register_step_answer guzbytor_register_step(uint8_t *state, size_t state_length, uint8_t *pegs, size_t pegs_length, const uint8_t *event,
                                                     size_t event_length, uint8_t *out, size_t out_length);

/* As guzbytor_burst_answer; `greened` and `refused` count over all events taken. */
typedef struct {
    uint32_t number;
    uint32_t store;
    uint32_t sent;
    uint32_t greened;
    uint32_t refused;
    size_t events;
    size_t bytes;
} guzbytor_register_burst_answer;

/* Many events, as guzbytor_burst takes them, each by what guzbytor_register_step does; each buffer is checked once. It ends where guzbytor_burst ends,
   and the daemon goes on as behind that one, with both stored as one. */
guzbytor_register_burst_answer guzbytor_register_burst(uint8_t *state, size_t state_length, uint8_t *pegs, size_t pegs_length, const uint8_t *events,
                                                       size_t events_length, uint8_t *out, size_t out_length);

#ifdef __cplusplus
}
#endif

#endif
