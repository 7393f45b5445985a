#include "events.h"
#include "office.h"

#include <string.h>

enum { WIPED = 0xEE };

/* What a crash does to an event: the store is cut (the event has not come), or only the first `most` records are sent. */
typedef struct {
    int crash;
    int cuts_store;
    uint32_t most;
} fate;

static fate drawn_fate(office *o) {
    fate f = {one_in(&o->draws, o->crash_in), 0, UINT32_MAX};
    if (f.crash) {
        f.cuts_store = one_in(&o->draws, 4);
        f.most = one_in(&o->draws, 2) ? 0 : below(&o->draws, 4);
    }
    return f;
}

void depot_start(office *o, uint8_t k) {
    depot *d = &o->depots[k];
    guzbytor_lengths_answer lengths = guzbytor_lengths(o->servers, o->quota);
    d->image = new_image(o->servers, o->quota);
    d->state = state_of(d->image);
    d->pegs = pegs_of(d->image);
    d->out = lent(lengths.out);
    memset(d->image.bytes, WIPED, d->image.length);
    if (guzbytor_start(d->state.bytes, d->state.length, o->servers, o->quota, k) != 0 ||
        guzbytor_register_start(d->pegs.bytes, d->pegs.length) != 0) {
        wrong(o, "depot %u cannot start", k);
    }
    d->history = history_start();
    d->payloads = grown(NULL, MOST_REQUESTS * sizeof *d->payloads);
    store_all(&o->store, k, d->image, &d->history);
    d->up = 1;
}

guzbytor_summary_answer depot_summary(const office *o, uint8_t k) {
    guzbytor_summary_answer a = guzbytor_summary(o->depots[k].state.bytes, o->depots[k].state.length);
    if (a.number != 0) {
        wrong(o, "depot %u: its state is refused with %u", k, a.number);
    }
    return a;
}

/* ---- crashes */

/* The running state and register are gone, and what was read and not stored. */
static void lose_memory(office *o, uint8_t k) {
    depot *d = &o->depots[k];
    d->up = 0;
    free(d->history.bytes);
    d->history = history_start();
    memset(d->image.bytes, WIPED, d->image.length);
    group_falls(&o->group, k, one_in(&o->draws, 2));
}

void depot_crashes(office *o, uint8_t k) {
    lose_memory(o, k);
    journal_crash(&o->journal, k);
    o->crashes++;
}

void depot_recovers(office *o, uint8_t k) {
    depot *d = &o->depots[k];
    uint8_t bytes[GUZBYTOR_AT_BODY];
    if (d->up) {
        lose_memory(o, k);
    }
    if (!store_load(&o->store, k, d->image, &d->history)) {
        wrong(o, "depot %u cannot recover", k);
    }
    guzbytor_summary_answer a = depot_summary(o, k);
    test_requests(o, k, a);
    d->green = a.green;
    d->refused = register_follows(o, k, d->image, &d->history);
    d->up = 1;
    uint32_t number = depot_takes(o, &(event){.server = k, .bytes = bytes, .length = write_recovery(bytes)});
    if (number != 0) {
        wrong(o, "depot %u refuses to recover with %u", k, number);
    }
}

/* ---- one event: step, read what turned green, store all where the word says, then send, in order */

static void stores(office *o, uint8_t k) {
    depot *d = &o->depots[k];
    store_all(&o->store, k, d->image, &d->history);
    d->stored = d->history.count;
}

void depot_stores(office *o, uint8_t k) {
    stores(o, k);
    journal_store(&o->journal, k);
}

/* The records that an event put out are sent in their order, the first `most` of them; how many there are. */
static uint32_t send_records(office *o, uint8_t k, size_t length, uint32_t most) {
    const uint8_t *out = o->depots[k].out.bytes;
    uint32_t put = 0;
    for (size_t at = 0; at < length; at += record_length(out + at), put++) {
        note_put(o, k, out + at);
        if (put < most) {
            group_send(&o->group, k, out + at, record_length(out + at), o->journal.entries, put);
        }
    }
    return put;
}

/* What the answers say turned green is what the state has. */
static void count_greens(office *o, uint8_t k, guzbytor_register_step_answer a, uint32_t green) {
    depot *d = &o->depots[k];
    d->green += a.greened;
    d->refused += a.refused;
    if (green != d->green || a.refused > a.greened) {
        wrong(o, "depot %u: an event turned %u green, and not %u", k, green - (d->green - a.greened), a.greened);
    }
}

static void finish(office *o, const event *e, guzbytor_register_step_answer a, fate f) {
    depot *d = &o->depots[e->server];
    guzbytor_summary_answer left = depot_reads(o, e->server);
    count_greens(o, e->server, a, left.green);
    note_request(o, e, a, left.green);
    if (a.number == 0) {
        note_came(o, e);
    }
    if (a.store == 1) {
        stores(o, e->server);
    }
    uint32_t put = send_records(o, e->server, a.sent, f.most);
    test_requests(o, e->server, left);
    test_meeting(o, e->server, left);
    journal_event(&o->journal, e, a.number, put, put < f.most ? put : f.most, d->state);
    if (f.crash) {
        if (one_in(&o->draws, 4) && o->stores) {
            depot_stores(o, e->server); /* a further store may fall between an event and the crash */
        }
        depot_crashes(o, e->server);
    }
}

/* A crash in the middle of the store: the event has not come, and what the daemon had before it is lost too. */
static void cut_store(office *o, uint8_t k) {
    depot *d = &o->depots[k];
    depot_reads(o, k);
    size_t length = d->history.length - d->history.stored + d->image.length;
    store_cut(&o->store, k, d->image, &d->history, below(&o->draws, (uint32_t)length + 1));
    depot_crashes(o, k);
}

void depot_finishes(office *o, const event *e, guzbytor_register_step_answer a) {
    fate f = drawn_fate(o);
    f.cuts_store = 0;
    finish(o, e, a, f);
}

uint32_t depot_takes(office *o, const event *e) {
    depot *d = &o->depots[e->server];
    fate f = drawn_fate(o);
    guzbytor_register_step_answer a = guzbytor_register_step(d->state.bytes, d->state.length, d->pegs.bytes, d->pegs.length, e->bytes, e->length,
                                                             d->out.bytes, d->out.length);
    if (f.cuts_store && a.store == 1) {
        cut_store(o, e->server);
    } else {
        finish(o, e, a, f);
    }
    return a.number;
}
