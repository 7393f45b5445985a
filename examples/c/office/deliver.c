/* What the group layer has for a depot: configurations, and records, one by one or several in a burst. */
#include "events.h"
#include "office.h"

#include <string.h>

enum { MOST_BURST = 16 };

static event delivery(uint8_t k, const record *r) {
    return (event){.server = k, .bytes = r->bytes.bytes, .length = r->bytes.length, .delivers = 1, .source = r->source};
}

/* The next records in a row; how many, and all of them one behind another. */
static size_t gathered(const office *o, uint8_t k, size_t most, event *events, buffer *all) {
    size_t count = 0, length = 0;
    for (const record *r; count < most && (r = group_record(&o->group, k, count)) != NULL; count++) {
        events[count] = delivery(k, r);
        length += r->bytes.length;
    }
    *all = lent(length);
    length = 0;
    for (size_t i = 0; i < count; i++) {
        memcpy(all->bytes + length, events[i].bytes, events[i].length);
        length += events[i].length;
    }
    return count;
}

/* The events of a burst but the last one, by single steps over a copy: they store and send nothing, and are written down as they would come alone.
   Then the last one, over the copy too: it must leave what the burst left. */
static void by_steps(office *o, const event *events, guzbytor_register_burst_answer a, buffer copy) {
    depot *d = &o->depots[events->server];
    buffer out = lent(d->out.length), state = state_of(copy), pegs = pegs_of(copy);
    guzbytor_register_step_answer s = {0, 0, 0, 0, 0};
    uint32_t greened = 0, refused = 0;
    for (size_t i = 0; i < a.events && s.number == 0 && s.store == 0 && s.sent == 0; i++) {
        s = guzbytor_register_step(state.bytes, state.length, pegs.bytes, pegs.length, events[i].bytes, events[i].length, out.bytes, out.length);
        greened += s.greened;
        refused += s.refused;
        if (i + 1 < a.events) {
            journal_event(&o->journal, &events[i], s.number, 0, 0, state);
        }
    }
    if (s.number != 0 || s.store != a.store || s.sent != a.sent || greened != a.greened || refused != a.refused ||
        memcmp(copy.bytes, d->image.bytes, copy.length) != 0 || memcmp(out.bytes, d->out.bytes, s.sent) != 0) {
        wrong(o, "depot %u: a burst of %zu records is not its steps", events->server, a.events);
    }
    free(out.bytes);
}

/* A burst ends with the event that stores or sends, if one does: the daemon's duties are those after that event. */
static void burst(office *o, uint8_t k, size_t most) {
    depot *d = &o->depots[k];
    event events[MOST_BURST];
    buffer all, copy = copied(d->image);
    size_t count = gathered(o, k, most < MOST_BURST ? most : MOST_BURST, events, &all);
    guzbytor_register_burst_answer a =
        guzbytor_register_burst(d->state.bytes, d->state.length, d->pegs.bytes, d->pegs.length, all.bytes, all.length, d->out.bytes, d->out.length);
    if (a.number != 0 || a.events == 0 || a.events > count) {
        wrong(o, "depot %u: a burst of %zu records ends with %u after %zu", k, count, a.number, a.events);
    }
    o->bursts += a.events > 1;
    for (size_t i = 0; i < a.events; i++) {
        group_delivered(&o->group, k);
        if (i + 1 < a.events) {
            note_came(o, &events[i]);
        }
    }
    by_steps(o, events, a, copy);
    depot_finishes(o, &events[a.events - 1], (guzbytor_register_step_answer){0, a.store, a.sent, a.greened, a.refused});
    free(all.bytes);
    free(copy.bytes);
}

/* The record that waits for a depot comes, or up to `most` of them in a burst. */
static void record_comes(office *o, uint8_t k, size_t most) {
    const record *r = group_record(&o->group, k, 0);
    if (r == NULL) {
        return;
    }
    if (most > 1 && group_record(&o->group, k, 1) != NULL) {
        burst(o, k, most);
        return;
    }
    event e = delivery(k, r);
    group_delivered(&o->group, k);
    uint32_t number = depot_takes(o, &e);
    if (number != 0) {
        wrong(o, "depot %u refuses a record with %u", k, number);
    }
}

static int configuration_comes(office *o, uint8_t k) {
    uint8_t b[REGULAR_SIZE];
    event e = {.server = k, .bytes = b};
    const transitional *t = group_parts(&o->group, k);
    const configuration *c = t == NULL ? group_joins(&o->group, k) : NULL;
    if (t != NULL) {
        e.length = write_transitional(b, t->set);
        e.name = t->name;
    } else if (c != NULL) {
        e.length = write_regular(b, c->id, c->set);
    } else {
        return 0;
    }
    uint32_t number = depot_takes(o, &e);
    if (number != 0) {
        wrong(o, "depot %u refuses a configuration with %u", k, number);
    }
    return 1;
}

int something_comes(office *o, uint8_t k) {
    if (!o->depots[k].up) {
        return 0;
    }
    if (group_record(&o->group, k, 0) != NULL) {
        record_comes(o, k, one_in(&o->draws, 2) ? 1 : 1 + below(&o->draws, 12));
        return 1;
    }
    return configuration_comes(o, k);
}

void parts_alone(office *o, uint8_t k) {
    uint8_t b[TRANSITIONAL_SIZE];
    if (o->group.members[k].in == NULL && !o->group.members[k].parted) {
        size_t length = write_transitional(b, (uint8_t)(only(k) | below(&o->draws, 1u << o->servers)));
        event e = {.server = k, .bytes = b, .length = length, .name = group_parts_alone(&o->group, k)};
        if (depot_takes(o, &e) != 0) {
            wrong(o, "depot %u refuses a transitional configuration", k);
        }
    }
}
