/* Requests: when a crew may ask, and what becomes of what it asks. */
#include "events.h"
#include "guzbytor_layout.h"
#include "office.h"

uint32_t free_places(const office *o, uint8_t k) {
    const depot *d = &o->depots[k];
    uint32_t taken = d->asked - d->history.own_white;
    if (taken > o->quota) {
        wrong(o, "depot %u has %u own entries that are not white", k, taken);
    }
    uint32_t places = o->quota - taken, life = MOST_REQUESTS - d->asked;
    return places < life ? places : life;
}

/* ---- asking */

/* A request is taken exactly where there is a free place, in every state. */
static uint32_t asks(office *o, uint8_t k, const uint8_t *payload, uint8_t length) {
    uint8_t b[MOST_REQUEST];
    uint32_t due = free_places(o, k) > 0 ? GUZBYTOR_TAKEN : GUZBYTOR_QUOTA_USED;
    uint32_t number = depot_takes(o, &(event){.server = k, .bytes = b, .length = write_request(b, payload, length)});
    if (number != due) {
        wrong(o, "depot %u answers a request with %u, and not with %u", k, number, due);
    }
    o->quota_used += number == GUZBYTOR_QUOTA_USED;
    return number;
}

uint32_t crew_comes(office *o, uint8_t k) {
    uint8_t payload[GUZBYTOR_MOST_PAYLOAD];
    uint8_t length = crew_asks(&o->crews, payload);
    return asks(o, k, payload, length);
}

/* A careful daemon fills its last place only in Reg_prim and with nothing on the own list: this entry tells that the one before it is green here. */
int crew_may_come(const office *o, uint8_t k) {
    uint32_t places = free_places(o, k);
    if (!o->careful || places != 1) {
        return places > 0;
    }
    guzbytor_summary_answer a = depot_summary(o, k);
    return a.state == GUZBYTOR_REG_PRIM && a.on_own_list == 0;
}

/* By a request with an empty payload, where half a quota is green and not white, and what the depot told last keeps all of that from being white. */
int depot_tells(office *o, uint8_t k) {
    guzbytor_summary_answer a = depot_summary(o, k);
    int waited_for = a.state == GUZBYTOR_REG_PRIM && a.green - a.white >= (o->quota + 1) / 2 && o->depots[k].told <= a.white;
    if (!o->careful || !waited_for || !crew_may_come(o, k)) {
        return 0;
    }
    asks(o, k, (const uint8_t *)"", 0);
    return 1;
}

/* ---- what comes of it */

/* A request that was answered 0 must be stored. It is kept, to be compared in the end. */
static void keep_request(office *o, const event *e, uint32_t store) {
    depot *d = &o->depots[e->server];
    if (store != 1) {
        wrong(o, "depot %u: a request after %u is answered 0, with the store word %u", e->server, d->asked, store);
    }
    memcpy(d->payloads[d->asked++], e->bytes + GUZBYTOR_AT_BODY, e->length - GUZBYTOR_AT_BODY);
}

void note_request(office *o, const event *e, guzbytor_register_step_answer a, uint32_t green) {
    uint8_t kind = e->bytes[GUZBYTOR_AT_KIND];
    if (a.number == 0 && (kind == GUZBYTOR_KIND_REQUEST || kind == GUZBYTOR_KIND_REGULAR)) {
        o->depots[e->server].told = green;
    }
    if (a.number == 0 && kind == GUZBYTOR_KIND_REQUEST) {
        keep_request(o, e, a.store);
    }
}

void note_put(office *o, uint8_t k, const uint8_t *put) {
    if (put[GUZBYTOR_AT_KIND] != GUZBYTOR_KIND_ACTION) {
        return;
    }
    const uint8_t *action = put + GUZBYTOR_AT_BODY;
    uint32_t index = (uint32_t)action[ACTION_INDEX] << 8 | action[ACTION_INDEX + 1];
    if (action[ACTION_CREATOR] != k || index <= o->depots[k].sent || index > o->depots[k].asked) {
        wrong(o, "depot %u sends action %u/%u after its own %u of %u", k, action[ACTION_CREATOR], index, o->depots[k].sent, o->depots[k].asked);
    }
    o->depots[k].sent = index;
}

void test_requests(const office *o, uint8_t k, guzbytor_summary_answer a) {
    const depot *d = &o->depots[k];
    uint32_t back = a.numbered - a.on_own_list, gone = back > d->sent ? back : d->sent;
    int sends = a.state == GUZBYTOR_REG_PRIM || (a.state == GUZBYTOR_NON_PRIM && a.configured && !a.transitional);
    if (a.numbered != d->asked) {
        wrong(o, "depot %u: %u requests were answered 0, and %u are numbered", k, d->asked, a.numbered);
    }
    if (a.unsent != a.numbered - gone || (sends && a.unsent != 0)) {
        wrong(o, "depot %u: in state %u, %u of %u are unsent, with %u on the own list and %u put out", k, a.state, a.unsent, a.numbered,
              a.on_own_list, d->sent);
    }
}
