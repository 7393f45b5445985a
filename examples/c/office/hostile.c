#include "events.h"
#include "guzbytor_layout.h"
#include "office.h"

#include <string.h>

/* A second regular configuration; a second transitional one where one has come. 0 where neither can be refused here. */
static size_t second_configuration(office *o, uint8_t k, uint8_t *b) {
    const member *m = &o->group.members[k];
    if (m->parted) {
        return write_transitional(b, only(k));
    }
    return m->in != NULL ? write_regular(b, group_new_id(&o->group), only(k)) : 0;
}

/* An action, as if sent by a server that is not in the configuration; 0 where all are. */
static size_t outsiders_action(office *o, uint8_t k, uint8_t *b) {
    const member *m = &o->group.members[k];
    uint8_t creator = 0;
    while (creator < o->servers && (creator == k || (m->in != NULL && has(m->in->set, creator)))) {
        creator++;
    }
    if (creator == o->servers) {
        return 0;
    }
    memset(b, 0, GUZBYTOR_AT_BODY + ACTION_SIZE);
    b[GUZBYTOR_AT_BODY + ACTION_CREATOR] = creator;
    b[GUZBYTOR_AT_BODY + ACTION_INDEX + 1] = 1;
    return write_frame(b, GUZBYTOR_KIND_ACTION, ACTION_SIZE);
}

/* An own action with an index that this depot has not numbered. */
static size_t unnumbered_action(office *o, uint8_t k, uint8_t *b) {
    uint32_t index = depot_summary(o, k).numbered + 1;
    if (index > MOST_REQUESTS) {
        return 0;
    }
    memset(b, 0, GUZBYTOR_AT_BODY + ACTION_SIZE);
    b[GUZBYTOR_AT_BODY + ACTION_CREATOR] = k;
    b[GUZBYTOR_AT_BODY + ACTION_INDEX] = (uint8_t)(index >> 8);
    b[GUZBYTOR_AT_BODY + ACTION_INDEX + 1] = (uint8_t)index;
    return write_frame(b, GUZBYTOR_KIND_ACTION, ACTION_SIZE);
}

static size_t unreadable(office *o, uint8_t k, uint8_t *b) {
    uint8_t payload[GUZBYTOR_MOST_PAYLOAD + 1] = {0};
    size_t length;
    switch (below(&o->draws, 4)) {
    case 0: /* a bad version */
        length = write_request(b, payload, 1);
        b[GUZBYTOR_AT_VERSION] = (uint8_t)(GUZBYTOR_VERSION + 1 + below(&o->draws, 255));
        return length;
    case 1: /* a bad kind */
        return write_frame(b, (uint8_t)(GUZBYTOR_KIND_SETUP + below(&o->draws, 200)), 0);
    case 2: /* a payload that is too long */
        return write_request(b, payload, GUZBYTOR_MOST_PAYLOAD + 1);
    default: /* a set without the server itself */
        return write_transitional(b, (uint8_t)(((1u << o->servers) - 1) & ~(unsigned)only(k)));
    }
}

/* Buffers that are refused before any event is looked at: 7 before 8, over all of them together. They stay as they were. */
static void refuses_buffers(office *o, uint8_t k) {
    uint8_t b[GUZBYTOR_AT_BODY];
    size_t length = write_recovery(b);
    buffer image = copied(o->depots[k].image), state = state_of(image), pegs = pegs_of(image), out = copied(o->depots[k].out);
    uint32_t what = 1 + below(&o->draws, 11), cut = what % 4, damaged = what / 4; /* one or both */
    uint32_t number = cut != 0 ? GUZBYTOR_SHORT_BUFFER : GUZBYTOR_BAD_STATE;
    state.length -= cut == 1;
    pegs.length -= cut == 2;
    out.length -= cut == 3;
    state.bytes[AT_LAYOUT] ^= damaged == 1;
    pegs.bytes[0] |= damaged == 2 ? 0x80 : 0; /* more pegs than there is room for */
    buffer before = copied(image);
    guzbytor_register_step_answer s = guzbytor_register_step(state.bytes, state.length, pegs.bytes, pegs.length, b, length, out.bytes, out.length);
    guzbytor_register_burst_answer a = guzbytor_register_burst(state.bytes, state.length, pegs.bytes, pegs.length, b, length, out.bytes, out.length);
    if (s.number != number || a.number != number || s.store + s.sent + s.greened + s.refused != 0 ||
        a.store + a.sent + a.greened + a.refused + a.events + a.bytes != 0 || memcmp(image.bytes, before.bytes, image.length) != 0 ||
        memcmp(out.bytes, o->depots[k].out.bytes, out.length) != 0) {
        wrong(o, "depot %u: buffers that must be refused with %u are answered %u and %u, or changed", k, number, s.number, a.number);
    }
    free(image.bytes);
    free(before.bytes);
    free(out.bytes);
}

/* What is white is gone from the state, and what is not green is not there. */
static void refuses_reading(office *o, uint8_t k) {
    uint8_t part[GUZBYTOR_MOST_ENTRY] = {0}, before[GUZBYTOR_MOST_ENTRY] = {0};
    buffer state = o->depots[k].state;
    guzbytor_summary_answer a = depot_summary(o, k);
    uint32_t from = a.white > 0 && one_in(&o->draws, 2) ? below(&o->draws, a.white) : a.green + 1 + below(&o->draws, 9);
    guzbytor_green_entries_answer r = guzbytor_green_entries(state.bytes, state.length, from, part, sizeof part);
    if (r.number != GUZBYTOR_OUT_OF_RANGE || r.green + r.white + r.entries + r.bytes != 0 || memcmp(part, before, sizeof part) != 0) {
        wrong(o, "depot %u: reading behind %u, with %u white and %u green, is answered %u", k, from, a.white, a.green, r.number);
    }
}

void depot_refuses(office *o, uint8_t k) {
    uint8_t b[MOST_REQUEST];
    size_t length = 0;
    switch (below(&o->draws, 6)) {
    case 0:
        length = second_configuration(o, k, b);
        break;
    case 1:
        length = outsiders_action(o, k, b);
        break;
    case 2:
        length = unnumbered_action(o, k, b);
        break;
    case 3:
        refuses_buffers(o, k);
        break;
    case 4:
        refuses_reading(o, k);
        break;
    default:
        length = unreadable(o, k, b);
    }
    if (length != 0 && depot_takes(o, &(event){.server = k, .bytes = b, .length = length}) == 0) {
        wrong(o, "depot %u takes an event that it must refuse", k);
    }
}
