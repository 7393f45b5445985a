/* An office to try the engine in: depots in one process over a group layer in memory (group.h), by a seed. Lines drop and come back, depots crash and
   recover, crews ask for pegs to be set, moved and retired (crews.c); in the end all lines are up, and all depots must have the same green list, of
   every request that was answered 0, whatever crashed behind it, and the register that it makes (greens.c). A daemon's duties are in depot.c.
   usage: office SEED [-n DEPOTS] [-q QUOTA] [-m MOVES] [-k REQUESTS] [-f] [-d FOLDER] [-u]
                 [-r RUN] [-l LINES] [-j JOURNAL] [-p PEGS | -w]
          office -t [-n DEPOTS] [-q QUOTA] [-d FOLDER]
   -k  behind the moves each depot that has crews takes so many requests more, the first and the last of them with all in touch
   -f  every request sets a peg that no other one sets
   -d  the folder of the stored images       -u  stores do not wait for the disk
   -r  the run as input of `replay` (to 4 depots and a quota of 16; no further stores are drawn)
   -l  the lines that `replay` prints for it  -j  the journal of the run for scripts/audit.py
   -p  the register of all depots in the end, as it stands in the buffer (examples/c/sheet.c prints and draws it)
   -w  stops behind the moves, with lines and depots down as they are: what still gets through comes, no configuration is formed any more, and of
       each meeting that does not end it prints what has come of what its depots wait for
   -t  tests the images in the folder, and ends */
#include "office.h"

#include "../pegs.h"

#include <stdarg.h>
#include <string.h>

enum { DEPOTS = 4, QUOTA = 16, MOVES = 150, REPLAY_DEPOTS = 4, REPLAY_QUOTA = 16 };

typedef struct {
    const char *seed;
    const char *run;
    const char *lines;
    const char *journal;
    const char *pegs;
    uint32_t moves;
    uint32_t more;
    int waits;
    int tests;
} options;

void wrong(const office *o, const char *format, ...) {
    va_list rest;
    va_start(rest, format);
    printf("seed %llu: after %zu events ", (unsigned long long)o->seed, o->journal.events);
    vprintf(format, rest);
    printf("\n");
    va_end(rest);
    exit(1);
}

static void usage(const char *why) {
    fprintf(stderr, "%s\nusage: office SEED [-n DEPOTS] [-q QUOTA] [-m MOVES] [-k REQUESTS] [-f] [-d FOLDER] [-u]\n", why);
    fprintf(stderr, "              [-r RUN] [-l LINES] [-j JOURNAL] [-p PEGS | -w]\n");
    fprintf(stderr, "       office -t [-n DEPOTS] [-q QUOTA] [-d FOLDER]\n");
    exit(1);
}

static uint64_t number(const char *word) {
    char *end;
    unsigned long long value = strtoull(word, &end, 10);
    if (*word < '0' || *word > '9' || *end != '\0') {
        usage("not a number");
    }
    return value;
}

/* One option and the word behind it. */
static void read_option(char letter, const char *word, office *o, options *p) {
    switch (letter) {
    case 'n':
        o->servers = (uint32_t)number(word);
        break;
    case 'q':
        o->quota = (uint32_t)number(word);
        break;
    case 'm':
        p->moves = (uint32_t)number(word);
        break;
    case 'k':
        p->more = (uint32_t)number(word);
        break;
    case 'd':
        o->store.folder = word;
        break;
    case 'r':
        p->run = word;
        break;
    case 'l':
        p->lines = word;
        break;
    case 'j':
        p->journal = word;
        break;
    case 'p':
        p->pegs = word;
        break;
    default:
        usage("no such option");
    }
}

static options read_options(int count, char **words, office *o) {
    options p = {.moves = MOVES};
    for (int i = 1; i < count; i++) {
        const char *word = words[i];
        if (strcmp(word, "-u") == 0) {
            o->store.synced = 0;
        } else if (strcmp(word, "-f") == 0) {
            o->crews.fresh = 1;
        } else if (strcmp(word, "-w") == 0) {
            p.waits = 1;
        } else if (strcmp(word, "-t") == 0) {
            p.tests = 1;
        } else if (word[0] == '-' && word[1] != '\0' && word[2] == '\0' && i + 1 < count) {
            read_option(word[1], words[++i], o, &p);
        } else if (p.seed == NULL && word[0] != '-') {
            p.seed = word;
        } else {
            usage("words that are not understood");
        }
    }
    if ((p.seed == NULL) != p.tests || guzbytor_lengths(o->servers, o->quota).number != 0) {
        usage("a seed or -t, 2 to 8 depots and a quota of 1 to 256");
    }
    if (p.waits && p.pegs != NULL) {
        usage("a run that stops has no register of all depots");
    }
    if (p.run != NULL && (o->servers > REPLAY_DEPOTS || o->quota > REPLAY_QUOTA)) {
        usage("replay takes 4 depots and a quota of 16 at most");
    }
    return p;
}

static FILE *opened(const char *name) {
    FILE *f = name == NULL ? NULL : fopen(name, "wb");
    if (name != NULL && f == NULL) {
        perror(name);
        exit(1);
    }
    return f;
}

/* Whether every image in the folder is one that a daemon would start from. */
static int test_images(const office *o) {
    buffer image = new_image(o->servers, o->quota);
    history h = history_start();
    int bad = 0;
    for (uint8_t k = 0; k < o->servers; k++) {
        if (store_load(&o->store, k, image, &h)) {
            printf("depot %u: %u green, %u of them white, %zu pegs\n", k, h.count, h.white, peg_count(pegs_of(image).bytes));
        } else {
            bad = 1;
        }
    }
    free(h.bytes);
    free(image.bytes);
    return bad;
}

static void write_pegs(const office *o, const char *name) {
    FILE *f = opened(name);
    buffer pegs = o->depots[0].pegs;
    if (f != NULL && (fwrite(pegs.bytes, 1, pegs.length, f) != pegs.length) + (fclose(f) != 0) != 0) {
        wrong(o, "%s is not whole", name);
    }
}

/* How the run ended. */
static void report(const office *o, const options *p) {
    const depot *d = &o->depots[0];
    uint32_t waiting = p->waits ? depots_wait(o) : 0, past = 0;
    printf("seed %llu: %zu events, %zu crashes, ", (unsigned long long)o->seed, o->journal.events, o->crashes);
    if (p->waits) {
        printf("stopped, %u of %u depots in a meeting\n", waiting, o->servers);
        return;
    }
    for (uint8_t k = 0; k < o->servers; k++) {
        past += o->depots[k].asked > o->quota;
    }
    printf("%u green, %u white, %u refused, %zu pegs, %u depots past the quota, %zu requests answered 3, equal\n", d->green, d->history.white,
           d->refused, peg_count(d->pegs.bytes), past, o->quota_used);
}

static void run(office *o, const options *p) {
    o->seed = number(p->seed);
    o->draws.state = o->seed;
    o->crews = crews_come(o->seed, o->crews.fresh);
    o->stores = p->run == NULL;
    o->group = (group){.servers = o->servers, .salt = (uint32_t)drawn(&o->draws)};
    o->careful = one_in(&o->draws, 2);
    o->journal = (journal){.run = opened(p->run), .lines = opened(p->lines), .journal = opened(p->journal)};
    journal_begin(&o->journal, o->servers, o->quota);
    store_open(&o->store);
    for (uint8_t k = 0; k < o->servers; k++) {
        depot_start(o, k);
    }
    trial(o, p->moves, p->waits);
    if (p->waits) {
        depots_agree(o);
    } else {
        trial_ends(o);
        depots_equal(o);
        if (p->more > 0) {
            trial_goes_on(o, p->more);
            depots_equal(o);
        }
    }
    if (!journal_end(&o->journal)) {
        wrong(o, "a file is not whole");
    }
    write_pegs(o, p->pegs);
    report(o, p);
}

int main(int count, char **words) {
    static office o = {.servers = DEPOTS, .quota = QUOTA, .store = {.folder = "depots", .synced = 1}};
    options p = read_options(count, words, &o);
    o.store.servers = o.servers;
    o.store.quota = o.quota;
    if (p.tests) {
        return test_images(&o);
    }
    run(&o, &p);
    group_end(&o.group);
    for (uint8_t k = 0; k < o.servers; k++) {
        free(o.depots[k].image.bytes);
        free(o.depots[k].history.bytes);
        free(o.depots[k].payloads);
        free(o.depots[k].out.bytes);
    }
    return 0;
}
