#include "group.h"

#include <string.h>

/* Ids differ, and use all of their 32 bits: an odd factor makes a permutation. */
uint32_t group_new_id(group *g) { return g->count++ * 2654435761u + g->salt; }

/* ---- records */

static void find_safe(configuration *c) {
    while (c->safe < c->count && (c->order[c->safe].received & c->set) == c->set) {
        c->safe++;
    }
}

void group_send(group *g, uint8_t k, const uint8_t *bytes, size_t length, size_t place, uint32_t number) {
    configuration *c = g->members[k].in;
    if (c == NULL || g->members[k].parted) {
        fprintf(stderr, "depot %u sends outside a regular configuration\n", k);
        exit(1);
    }
    if (c->count == c->room) {
        c->room = c->room * 2 + 16;
        c->order = grown(c->order, c->room * sizeof *c->order);
    }
    c->order[c->count] = (record){lent(length), k, only(k), {place, number, c->count}};
    memcpy(c->order[c->count].bytes.bytes, bytes, length);
    c->count++;
    find_safe(c);
}

/* Whether one of `heard`, still in the configuration, has the record. */
static int is_held(const group *g, const configuration *c, const record *r, uint8_t heard) {
    for (uint8_t j = 0; j < g->servers; j++) {
        if (has(heard & r->received, j) && g->members[j].in == c) {
            return 1;
        }
    }
    return 0;
}

int group_receive(group *g, uint8_t k, uint8_t heard, int any, draws *d) {
    member *m = &g->members[k];
    if (m->in == NULL || m->parted) {
        return 0;
    }
    configuration *c = m->in;
    size_t waiting = c->count - c->safe;
    size_t first = any && waiting > 0 ? below(d, (uint32_t)waiting) : 0;
    for (size_t i = 0; i < waiting; i++) {
        record *r = &c->order[c->safe + (first + i) % waiting];
        if (!has(r->received, k) && is_held(g, c, r, heard)) {
            r->received |= only(k);
            find_safe(c);
            return 1;
        }
    }
    return 0;
}

const record *group_record(const group *g, uint8_t k, size_t ahead) {
    const member *m = &g->members[k];
    size_t at = m->delivered + ahead;
    if (m->in == NULL) {
        return NULL;
    }
    if (m->parted) {
        return m->through->awaited == 0 && at < m->through->count ? &m->in->order[m->through->rest[at]] : NULL;
    }
    return at < (m->through != NULL ? m->through->before : m->in->safe) ? &m->in->order[at] : NULL;
}

void group_delivered(group *g, uint8_t k) { g->members[k].delivered++; }

/* ---- configurations */

/* What is delivered in a transitional configuration, now that its members have all come to it or gone down. */
static void settle(transitional *t) {
    const configuration *c = t->from;
    uint8_t gaps = 0; /* senders of whom a record is missing */
    t->rest = grown(NULL, (c->count - t->before + 1) * sizeof *t->rest);
    for (size_t i = t->before; i < c->count; i++) {
        const record *r = &c->order[i];
        if ((r->received & t->set) == 0) {
            gaps |= only(r->sender);
        } else if (!has(gaps, r->sender)) {
            t->rest[t->count++] = i;
        }
    }
}

static void no_longer_awaited(transitional *t, uint8_t k) {
    int awaited = has(t->awaited, k);
    t->awaited &= (uint8_t)~only(k);
    if (awaited && t->awaited == 0) {
        settle(t);
    }
}

/* Members of `set` that are in c, with no transitional configuration yet, agree on one. */
static void part(group *g, configuration *c, uint8_t set, draws *d) {
    transitional *t = grown(NULL, sizeof *t);
    *t = (transitional){.from = c, .name = ++g->names, .older = g->transitionals};
    g->transitionals = t;
    for (uint8_t k = 0; k < g->servers; k++) {
        member *m = &g->members[k];
        if (has(set, k) && m->in == c && m->through == NULL) {
            t->set |= only(k);
            m->through = t;
            t->before = m->delivered > t->before ? m->delivered : t->before;
        }
    }
    t->before += below(d, (uint32_t)(c->safe - t->before + 1));
    t->awaited = t->set;
}

void group_form(group *g, uint8_t set, draws *d) {
    configuration *c = grown(NULL, sizeof *c);
    *c = (configuration){.id = group_new_id(g), .set = set, .older = g->configurations};
    g->configurations = c;
    for (uint8_t k = 0; k < g->servers; k++) {
        member *m = &g->members[k];
        if (has(set, k)) {
            if (m->in != NULL && m->through == NULL) {
                part(g, m->in, set, d);
            }
            m->next = c;
        }
    }
}

const transitional *group_parts(group *g, uint8_t k) {
    member *m = &g->members[k];
    if (m->through == NULL || m->parted || m->delivered < m->through->before) {
        return NULL;
    }
    m->parted = 1;
    m->delivered = 0;
    no_longer_awaited(m->through, k);
    return m->through;
}

const configuration *group_joins(group *g, uint8_t k) {
    member *m = &g->members[k];
    int free = m->in == NULL || (m->parted && m->through->awaited == 0 && m->delivered == m->through->count);
    if (m->next == NULL || !free) {
        return NULL;
    }
    *m = (member){.in = m->next};
    return m->in;
}

uint32_t group_parts_alone(group *g, uint8_t k) {
    g->members[k].parted = 1;
    return ++g->names;
}

void group_falls(group *g, uint8_t k, int keeps_next) {
    member *m = &g->members[k];
    if (m->through != NULL) {
        no_longer_awaited(m->through, k);
    }
    *m = (member){.next = keeps_next ? m->next : NULL};
}

const configuration *group_goal(const group *g, uint8_t k) {
    const member *m = &g->members[k];
    return m->next != NULL ? m->next : m->in;
}

void group_end(group *g) {
    while (g->configurations != NULL) {
        configuration *c = g->configurations;
        g->configurations = c->older;
        for (size_t i = 0; i < c->count; i++) {
            free(c->order[i].bytes.bytes);
        }
        free(c->order);
        free(c);
    }
    while (g->transitionals != NULL) {
        transitional *t = g->transitionals;
        g->transitionals = t->older;
        free(t->rest);
        free(t);
    }
}
