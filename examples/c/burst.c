/* Each server's events of a recorded run, taken in bursts, as by a daemon that has them all waiting; beside it the same events by single steps. Both
   must leave the same bytes. It prints how many bursts there were. */
#include "run.h"

#include <string.h>

/* One way to take events: the running state, the image stored last, and the outgoing buffer. */
typedef struct {
    buffer state;
    buffer stored;
    buffer out;
} way;

static way begun(guzbytor_lengths_answer lengths, uint8_t servers, uint32_t quota, uint8_t me) {
    way w = {lent(lengths.state), lent(lengths.state), lent(lengths.out)};
    memset(w.state.bytes, 0, w.state.length);
    memset(w.out.bytes, 0, w.out.length);
    guzbytor_start(w.state.bytes, w.state.length, servers, quota, me);
    memcpy(w.stored.bytes, w.state.bytes, w.state.length);
    return w;
}

static void ended(way w) {
    free(w.state.bytes);
    free(w.stored.bytes);
    free(w.out.bytes);
}

/* A recovery, of which these are the only bytes, is given the image stored last. */
static void before(way w, const uint8_t *event) {
    static const uint8_t recovery[GUZBYTOR_AT_BODY] = {0, GUZBYTOR_AT_BODY - 2, GUZBYTOR_VERSION, GUZBYTOR_KIND_RECOVERY};
    if (record_length(event) == GUZBYTOR_AT_BODY && memcmp(event, recovery, GUZBYTOR_AT_BODY) == 0) {
        memcpy(w.state.bytes, w.stored.bytes, w.state.length);
    }
}

/* What is stored is stored before the records are sent. */
static void after(way w, uint32_t store) {
    if (store == 1) {
        memcpy(w.stored.bytes, w.state.bytes, w.state.length);
    }
}

static guzbytor_step_answer step(way w, const uint8_t *event) {
    before(w, event);
    guzbytor_step_answer a = guzbytor_step(w.state.bytes, w.state.length, event, record_length(event), w.out.bytes, w.out.length);
    after(w, a.store);
    return a;
}

/* Whether the steps of the events that a burst took answer and leave the same. */
static int same(way bursts, way steps, const uint8_t *events, guzbytor_burst_answer a) {
    guzbytor_step_answer last = {0, 0, 0};
    const uint8_t *next = events;
    for (size_t k = 0; k < a.events && last.number == 0; k++) {
        last = step(steps, next);
        next += record_length(next);
    }
    if (last.number != 0 || last.store != a.store || last.sent != a.sent || next != events + a.bytes) {
        return 0;
    }
    if (a.number != 0 && step(steps, next).number != a.number) {
        return 0;
    }
    return memcmp(bursts.state.bytes, steps.state.bytes, bursts.state.length) == 0 &&
           memcmp(bursts.out.bytes, steps.out.bytes, bursts.out.length) == 0;
}

/* The events of one server, one behind another. */
static buffer events_of(buffer input, uint8_t me) {
    buffer events = lent(input.length);
    events.length = 0;
    for (size_t at = SETUP_LENGTH; at < input.length; at += 1 + record_length(input.bytes + at + 1)) {
        if (input.bytes[at] == me) {
            size_t length = record_length(input.bytes + at + 1);
            memcpy(events.bytes + events.length, input.bytes + at + 1, length);
            events.length += length;
        }
    }
    return events;
}

/* Bursts one after another; 1 where one differs from its steps. */
static int run(way bursts, way steps, buffer events, uint8_t me) {
    size_t count = 0, taken = 0, refused = 0;
    for (size_t at = 0; at < events.length; count++) {
        const uint8_t *next = events.bytes + at;
        before(bursts, next);
        guzbytor_burst_answer a =
            guzbytor_burst(bursts.state.bytes, bursts.state.length, next, events.length - at, bursts.out.bytes, bursts.out.length);
        after(bursts, a.store);
        if (!same(bursts, steps, next, a) || (a.number == 0 && a.events == 0)) {
            return 1;
        }
        at += a.bytes;
        taken += a.events;
        if (a.number != 0) {
            at += record_length(events.bytes + at); /* a refused event is passed over */
            refused++;
        }
    }
    printf("server %u: %zu events taken and %zu refused, in %zu bursts\n", me, taken, refused, count);
    return 0;
}

int main(int count, char **words) {
    if (count != 2) {
        fprintf(stderr, "usage: burst RUN\n");
        return 1;
    }
    buffer input = read_file(words[1]);
    guzbytor_lengths_answer lengths = {0, 0, 0};
    int differs = set_up(input, &lengths) != 0;
    for (uint8_t me = 0; !differs && me < input.bytes[SETUP_SERVERS]; me++) {
        way bursts = begun(lengths, input.bytes[SETUP_SERVERS], setup_quota(input.bytes), me);
        way steps = begun(lengths, input.bytes[SETUP_SERVERS], setup_quota(input.bytes), me);
        buffer events = events_of(input, me);
        differs = run(bursts, steps, events, me);
        ended(bursts);
        ended(steps);
        free(events.bytes);
    }
    free(input.bytes);
    if (differs) {
        printf("a burst is not its steps\n");
    }
    return differs;
}
