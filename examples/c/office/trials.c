#include "events.h"
#include "office.h"

/* How a run goes, drawn once: lines[k] is a number that the depots on connected lines share. */
typedef struct {
    uint8_t lines[GUZBYTOR_MOST_SERVERS];
    uint32_t pace;      /* deliveries and receptions between two moves, at most */
    uint32_t change_in; /* lines change once in so many moves */
    uint32_t requests;  /* at most so many with each move */
    uint32_t at_once;   /* records received one after another, at most */
    uint32_t astray_in; /* a record comes out of its order once in so many; 0: never */
    uint8_t idle;       /* these depots have no crews */
} course;

/* The depots that are up and that k has a line to, itself too. */
static uint8_t heard_by(const office *o, const course *c, uint8_t k) {
    uint8_t set = 0;
    for (uint8_t j = 0; j < o->servers; j++) {
        if (o->depots[j].up && c->lines[j] == c->lines[k]) {
            set |= only(j);
        }
    }
    return set;
}

/* ---- lines and the group layer */

static void change_lines(office *o, course *c) {
    uint8_t from = c->lines[below(&o->draws, o->servers)], to = c->lines[below(&o->draws, o->servers)];
    uint32_t what = below(&o->draws, 4);
    uint8_t fresh = (uint8_t)(GUZBYTOR_MOST_SERVERS + below(&o->draws, 200));
    for (uint8_t k = 0; k < o->servers; k++) {
        if (what == 0) { /* all lines are up */
            c->lines[k] = 0;
        } else if (what == 1) { /* any groups */
            c->lines[k] = (uint8_t)below(&o->draws, o->servers);
        } else if (what == 2 && c->lines[k] == from) { /* two groups have a line again */
            c->lines[k] = to;
        } else if (what == 3 && c->lines[k] == from && one_in(&o->draws, 2)) { /* some of a group are cut off */
            c->lines[k] = fresh;
        }
    }
}

/* Whether the depots that k hears, and no others, are in one configuration or go to it. */
static int is_settled(const office *o, uint8_t k, uint8_t heard) {
    const configuration *goal = group_goal(&o->group, k);
    for (uint8_t j = 0; j < o->servers; j++) {
        if (has(heard, j) && group_goal(&o->group, j) != goal) {
            return 0;
        }
    }
    return goal != NULL && goal->set == heard;
}

/* The group layer notices who hears whom, and forms a configuration of them, if it has not. */
static int notices(office *o, const course *c, uint8_t k) {
    uint8_t heard = heard_by(o, c, k);
    if (!o->depots[k].up || is_settled(o, k, heard)) {
        return 0;
    }
    group_form(&o->group, heard, &o->draws);
    return 1;
}

/* It forms some configuration of those that hear each other, for no reason. */
static void forms_anyhow(office *o, const course *c, uint8_t k) {
    group_form(&o->group, (uint8_t)(only(k) | (heard_by(o, c, k) & drawn(&o->draws))), &o->draws);
}

/* ---- a run */

/* Records are received and delivered, here and there. */
static void some_time_passes(office *o, const course *c) {
    for (uint32_t left = below(&o->draws, c->pace) + 1; left > 0; left--) {
        uint8_t k = (uint8_t)below(&o->draws, o->servers);
        if (!o->depots[k].up) {
            continue;
        }
        if (one_in(&o->draws, 2)) {
            something_comes(o, k);
        } else {
            uint8_t heard = heard_by(o, c, k);
            for (uint32_t more = below(&o->draws, c->at_once) + 1; more > 0; more--) {
                group_receive(&o->group, k, heard, one_in(&o->draws, c->astray_in), &o->draws);
            }
        }
    }
}

/* Something happens to one depot. */
static void befalls(office *o, const course *c, uint8_t k) {
    if (!o->depots[k].up) {
        if (one_in(&o->draws, 3)) {
            depot_recovers(o, k);
        }
        return;
    }
    switch (below(&o->draws, 24)) {
    case 0:
        depot_refuses(o, k);
        break;
    case 1:
        if (o->stores) {
            depot_stores(o, k);
        }
        break;
    case 2:
        parts_alone(o, k);
        break;
    case 3:
        if (one_in(&o->draws, 3) && o->crash_in != 0) {
            depot_crashes(o, k);
        }
        break;
    case 4:
        if (one_in(&o->draws, 3) && o->crash_in != 0) {
            depot_recovers(o, k); /* without a crash before it */
        }
        break;
    case 5:
        if (one_in(&o->draws, 4)) {
            forms_anyhow(o, c, k);
        }
        break;
    default:
        notices(o, c, k);
    }
}

/* What gets through on these lines comes; whether anything did. */
static int gets_through(office *o, const course *c) {
    int moved = 0;
    for (uint8_t k = 0; k < o->servers; k++) {
        while (group_receive(&o->group, k, heard_by(o, c, k), 0, &o->draws)) {
            moved = 1;
        }
    }
    for (uint8_t k = 0; k < o->servers; k++) {
        while (something_comes(o, k)) {
            moved = 1;
        }
    }
    return moved;
}

/* Crews come to depots here and there, to a full one now and then; a daemon without crews tells its green length. */
static void crews_ask(office *o, const course *c) {
    for (uint32_t left = below(&o->draws, c->requests + 1); left > 0; left--) {
        uint8_t k = (uint8_t)below(&o->draws, o->servers);
        if (!o->depots[k].up) {
            continue;
        }
        if (has(c->idle, k)) {
            depot_tells(o, k);
        } else if (crew_may_come(o, k) || (free_places(o, k) == 0 && one_in(&o->draws, 16))) {
            crew_comes(o, k);
        }
    }
}

void trial(office *o, uint32_t moves, int stops) {
    static const uint32_t paces[] = {3, 12, 40, 120}, crashes[] = {0, 40, 150, 600}, at_once[] = {1, 4, 16}, astray[] = {0, 1, 4};
    course c = {
        .pace = paces[below(&o->draws, 4)],
        .change_in = 4 + below(&o->draws, 20),
        .requests = 1 + below(&o->draws, 4),
        .at_once = at_once[below(&o->draws, 3)],
        .astray_in = astray[below(&o->draws, 3)],
        .idle = (uint8_t)(one_in(&o->draws, 4) ? drawn(&o->draws) : 0),
    };
    o->crash_in = crashes[below(&o->draws, 4)];
    for (uint32_t i = 0; i < moves; i++) {
        befalls(o, &c, (uint8_t)below(&o->draws, o->servers));
        crews_ask(o, &c);
        some_time_passes(o, &c);
        if (one_in(&o->draws, c.change_in)) {
            change_lines(o, &c);
            depots_agree(o);
        }
    }
    o->crash_in = 0;
    while (stops && gets_through(o, &c)) {
    }
}

/* On these lines, until nothing moves. */
static int settles(office *o, const course *c) {
    int any = 0;
    for (int moved = 1; moved;) {
        moved = 0;
        for (uint8_t k = 0; k < o->servers; k++) {
            moved = notices(o, c, k) || moved;
        }
        moved = gets_through(o, c) || moved;
        any = any || moved;
    }
    return any;
}

/* A mark can be left though all depots are there: where one of its set has another mark, of the same index and attempt. The later of two such marks
   is cleared first, and the next configuration clears the other. */
void trial_ends(office *o) {
    course c = {.lines = {0}};
    for (uint8_t k = 0; k < o->servers; k++) {
        if (!o->depots[k].up) {
            depot_recovers(o, k);
        }
    }
    settles(o, &c);
    for (uint8_t more = 1; more < o->servers && depot_summary(o, 0).state == GUZBYTOR_NON_PRIM; more++) {
        group_form(&o->group, heard_by(o, &c, 0), &o->draws);
        settles(o, &c);
    }
}

/* ---- going on */

/* Crews come as their daemon lets them, until `left` of them have been taken, and to a full depot in vain; whether anything was taken. */
static int some_are_taken(office *o, uint8_t k, uint32_t *left) {
    uint32_t before = *left;
    for (uint32_t most = 1 + below(&o->draws, o->quota); most > 0 && *left > 0 && crew_may_come(o, k); most--) {
        *left -= crew_comes(o, k) == GUZBYTOR_TAKEN;
    }
    if (*left > 0 && free_places(o, k) == 0) {
        crew_comes(o, k);
        *left = o->depots[k].asked == MOST_REQUESTS ? 0 : *left; /* no place comes free any more */
    }
    return *left < before || depot_tells(o, k);
}

/* On these lines, until all have been taken or nothing moves; whether all have. */
static int all_are_taken(office *o, const course *c, uint32_t *left) {
    for (int moved = 1; moved;) {
        uint32_t waiting = 0;
        for (uint8_t k = 0; k < o->servers; k++) {
            waiting += left[k];
        }
        moved = 0;
        for (uint8_t k = 0; k < o->servers && waiting > 0; k++) {
            moved = some_are_taken(o, k, &left[k]) || moved;
        }
        moved = settles(o, c) || moved;
        if (waiting == 0) {
            return 1;
        }
    }
    return 0;
}

/* With all in touch. Careful daemons never come to wait for each other; others do, until a configuration is formed: then all have told all. */
static void all_in_touch(office *o, uint32_t *left) {
    course c = {.lines = {0}};
    while (!all_are_taken(o, &c, left)) {
        if (o->careful && o->quota > 1) {
            wrong(o, "all lines are up, and crews wait for places");
        }
        group_form(&o->group, heard_by(o, &c, 0), &o->draws);
        settles(o, &c);
        for (uint8_t k = 0; k < o->servers; k++) {
            guzbytor_summary_answer a = depot_summary(o, k);
            if (a.white != a.green) {
                wrong(o, "depot %u: behind a meeting of all, %u of %u are white", k, a.white, a.green);
            }
        }
    }
}

static void want(const office *o, uint8_t idle, uint32_t *left, uint32_t each) {
    for (uint8_t k = 0; k < o->servers; k++) {
        left[k] += has(idle, k) ? 0 : each;
    }
}

void trial_goes_on(office *o, uint32_t each) {
    uint32_t left[GUZBYTOR_MOST_SERVERS] = {0}, apart = each / 4;
    course c = {.lines = {0}, .idle = (uint8_t)(!o->crews.fresh && one_in(&o->draws, 4) ? drawn(&o->draws) : 0)};
    want(o, c.idle, left, each / 2);
    all_in_touch(o, left);
    for (uint8_t k = 0; k < o->servers / 3u + 1; k++) {
        c.lines[below(&o->draws, o->servers)] = 1;
    }
    want(o, c.idle, left, apart);
    all_are_taken(o, &c, left);
    depots_agree(o);
    want(o, c.idle, left, each - each / 2 - apart);
    all_in_touch(o, left);
}
