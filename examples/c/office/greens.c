#include "../pegs.h"
#include "office.h"
#include "plain_register.h"

#include <string.h>

enum { ROOM = 256 * GUZBYTOR_MOST_ENTRY };

/* ---- histories */

/* What is white, at any depot, is green in every store. */
static void test_white(const office *o, uint8_t k, uint32_t white) {
    for (uint8_t j = 0; j < o->servers; j++) {
        if (white > o->depots[j].stored) {
            wrong(o, "depot %u: %u entries are white, and depot %u has stored %u green ones", k, white, j, o->depots[j].stored);
        }
    }
    if (white < o->depots[k].history.white) {
        wrong(o, "depot %u: %u entries were white, and now %u are", k, o->depots[k].history.white, white);
    }
}

guzbytor_summary_answer depot_reads(office *o, uint8_t k) {
    uint8_t part[ROOM];
    history *h = &o->depots[k].history;
    buffer state = o->depots[k].state;
    guzbytor_summary_answer a = depot_summary(o, k);
    while (h->count < a.green) {
        guzbytor_green_entries_answer r = guzbytor_green_entries(state.bytes, state.length, h->count, part, ROOM);
        if (r.number != 0 || r.entries == 0 || r.green != a.green || r.white != a.white || !history_add(h, part, r.bytes)) {
            wrong(o, "depot %u: its green entries behind %u are refused with %u", k, h->count, r.number);
        }
    }
    if (h->count != a.green) {
        wrong(o, "depot %u: %u entries were green, and now %u are", k, h->count, a.green);
    }
    test_white(o, k, a.white);
    history_whiten(h, a.white, k);
    return a;
}

/* What a depot has: in memory, or while it is down in the store. */
typedef struct {
    buffer image;
    history history;
} kept;

static kept kept_at(const office *o, uint8_t k) {
    const depot *d = &o->depots[k];
    kept now = {d->image, d->history};
    if (!d->up) {
        now = (kept){lent(d->image.length), history_start()};
        if (!store_load(&o->store, k, now.image, &now.history)) {
            wrong(o, "depot %u cannot be read", k);
        }
    }
    return now;
}

static void let_go(const office *o, uint8_t k, kept now) {
    if (!o->depots[k].up) {
        free(now.image.bytes);
        free(now.history.bytes);
    }
}

/* ---- registers */

static int same_pegs(const uint8_t *a, const uint8_t *b) { return pegs_used(a) == pegs_used(b) && memcmp(a, b, pegs_used(a)) == 0; }

uint32_t register_follows(const office *o, uint8_t k, buffer image, const history *h) {
    buffer pegs = lent(GUZBYTOR_REGISTER_LENGTH);
    uint32_t refused = 0;
    memset(pegs.bytes, 0, GUZBYTOR_REGISTER_COUNT_SIZE);
    for (size_t at = 0; at < h->length; at += entry_length(h->bytes + at)) {
        const uint8_t *entry = h->bytes + at;
        refused += plain_operation(pegs.bytes, entry + ENTRY_FRONT, entry[ENTRY_FRONT - 1]) != 0;
    }
    if (!same_pegs(pegs.bytes, pegs_of(image).bytes)) {
        wrong(o, "depot %u: its register is not what its green list makes", k);
    }
    free(pegs.bytes);
    return refused;
}

/* Each follows its green list; where two green lists are equally long the registers are equal. */
static void compare_registers(const office *o, const kept *all) {
    for (uint8_t k = 0; k < o->servers; k++) {
        register_follows(o, k, all[k].image, &all[k].history);
        for (uint8_t j = 0; j < k; j++) {
            if (all[j].history.count == all[k].history.count && !same_pegs(pegs_of(all[j].image).bytes, pegs_of(all[k].image).bytes)) {
                wrong(o, "the registers of depots %u and %u, both of %u green entries, are not equal", j, k, all[k].history.count);
            }
        }
    }
}

/* ---- green lists and primary components */

/* Of any two depots that are up: the primary components known last are equal where their indexes are. */
static void compare_primaries(const office *o) {
    guzbytor_summary_answer known[GUZBYTOR_MOST_SERVERS];
    uint8_t count = 0;
    for (uint8_t k = 0; k < o->servers; k++) {
        if (!o->depots[k].up) {
            continue;
        }
        guzbytor_summary_answer a = depot_summary(o, k);
        for (uint8_t i = 0; i < count; i++) {
            const guzbytor_summary_answer *b = &known[i];
            if (a.primary_index == b->primary_index && (a.primary_attempt != b->primary_attempt || a.primary_set != b->primary_set)) {
                wrong(o, "depots %u and %u know different primary components of one index", b->me, k);
            }
        }
        known[count++] = a;
    }
}

static void compare_greens(const office *o, const kept *all) {
    const history *longest = &all[0].history;
    for (uint8_t k = 1; k < o->servers; k++) {
        const history *h = &all[k].history, *shorter = h->count < longest->count ? h : longest;
        longest = h->count < longest->count ? longest : h;
        if (shorter->length > longest->length || (shorter->length > 0 && memcmp(shorter->bytes, longest->bytes, shorter->length) != 0)) {
            wrong(o, "the green lists of depot %u and another one do not agree", k);
        }
    }
}

void depots_agree(const office *o) {
    kept all[GUZBYTOR_MOST_SERVERS];
    for (uint8_t k = 0; k < o->servers; k++) {
        all[k] = kept_at(o, k);
    }
    compare_greens(o, all);
    compare_registers(o, all);
    compare_primaries(o);
    for (uint8_t k = 0; k < o->servers; k++) {
        let_go(o, k, all[k]);
    }
}

/* Whether a green entry is the request that its creator was asked; `found` counts each creator's. */
static int was_asked(const office *o, const uint8_t *entry, uint32_t *found) {
    uint8_t creator = entry[0];
    uint32_t index = entry_index(entry);
    if (creator >= o->servers || index == 0 || index > o->depots[creator].asked) {
        return 0;
    }
    found[creator]++;
    return memcmp(entry + ENTRY_FRONT - 1, o->depots[creator].payloads[index - 1], 1 + (size_t)entry[ENTRY_FRONT - 1]) == 0;
}

/* The green list is what was asked: each request that was answered 0, crashes or not, and each once, as ids in a green list differ. */
static void compare_asked(const office *o, const history *h) {
    uint32_t found[GUZBYTOR_MOST_SERVERS] = {0};
    for (size_t at = 0; at < h->length; at += entry_length(h->bytes + at)) {
        const uint8_t *entry = h->bytes + at;
        if (!was_asked(o, entry, found)) {
            wrong(o, "entry %u/%u is green and was not asked so", entry[0], entry_index(entry));
        }
    }
    for (uint8_t k = 0; k < o->servers; k++) {
        if (found[k] != o->depots[k].asked) {
            wrong(o, "depot %u: %u requests were answered 0, and %u of them are green", k, o->depots[k].asked, found[k]);
        }
    }
}

void depots_equal(const office *o) {
    depots_agree(o);
    for (uint8_t k = 0; k < o->servers; k++) {
        const depot *d = &o->depots[k];
        guzbytor_summary_answer a = depot_summary(o, k);
        if (a.state != GUZBYTOR_REG_PRIM || a.red != 0 || a.on_own_list != 0) {
            depots_wait(o);
            wrong(o, "depot %u ends in state %u with %u red and %u on the own list, %u of these unsent", k, a.state, a.red, a.on_own_list, a.unsent);
        }
        if (a.green != d->green || a.green != d->history.count || a.green != o->depots[0].green) {
            wrong(o, "the green lists of depots 0 and %u are not equal", k);
        }
        if (register_follows(o, k, d->image, &d->history) != d->refused) {
            wrong(o, "depot %u: the answers count %u operations that were refused", k, d->refused);
        }
    }
    compare_asked(o, &o->depots[0].history);
}
