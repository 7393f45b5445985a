/* Writes a run at n servers with the quota q: all meet, and then requests come in rounds, as many at each server, until each has made a quota; each
   round's actions are delivered to everyone before the next round. MAKERS servers make requests: with all of them the entries of a round turn white
   in the next one; with fewer none does, for the others never tell what they have green, and the queue fills. In the form of samples/: a set-up
   record, then server byte and event, repeated. */
#include "run.h"

#include <string.h>

/* How many requests a server gets in a round: its actions then come in a row of n times as many. */
enum { REQUESTS = 16 };

static struct {
    uint8_t servers;
    guzbytor_lengths_answer lengths;
    uint8_t *state[GUZBYTOR_MOST_SERVERS];
    uint8_t *out;
    FILE *run;
} office;

/* The records sent, in the one order in which all servers get them. */
static struct {
    uint8_t *bytes;
    size_t length, delivered;
} order;

static void fail(const char *what) {
    fprintf(stderr, "%s\n", what);
    exit(1);
}

static void put(const void *bytes, size_t length) {
    if (fwrite(bytes, 1, length, office.run) != length) {
        fail("the run cannot be written");
    }
}

static void event(uint8_t server, const uint8_t *bytes, size_t length) {
    put(&server, 1);
    put(bytes, length);
    guzbytor_step_answer a = guzbytor_step(office.state[server], office.lengths.state, bytes, length, office.out, office.lengths.out);
    if (a.number != 0) {
        fail("an event is refused");
    }
    order.bytes = realloc(order.bytes, order.length + a.sent + 1);
    if (order.bytes == NULL) {
        fail("no memory");
    }
    memcpy(order.bytes + order.length, office.out, a.sent);
    order.length += a.sent;
}

static void settle(void) {
    while (order.delivered < order.length) {
        size_t length = record_length(order.bytes + order.delivered);
        for (uint8_t k = 0; k < office.servers; k++) {
            event(k, order.bytes + order.delivered, length);
        }
        order.delivered += length;
    }
}

static void request(uint8_t server) {
    static uint32_t random = 1;
    uint8_t bytes[GUZBYTOR_AT_BODY + 1 + GUZBYTOR_MOST_PAYLOAD] = {0, 0, GUZBYTOR_VERSION, GUZBYTOR_KIND_REQUEST};
    random = random * 1664525u + 1013904223u;
    uint8_t payload = (uint8_t)((random >> 16) % (GUZBYTOR_MOST_PAYLOAD + 1));
    bytes[1] = (uint8_t)(GUZBYTOR_AT_BODY + 1 + payload - GUZBYTOR_AT_VERSION);
    bytes[GUZBYTOR_AT_BODY] = payload;
    memset(bytes + GUZBYTOR_AT_BODY + 1, 7, payload);
    event(server, bytes, GUZBYTOR_AT_BODY + 1u + payload);
}

static void begin(uint8_t servers, uint16_t quota) {
    office.servers = servers;
    office.lengths = guzbytor_lengths(servers, quota);
    office.out = lent(office.lengths.out).bytes;
    put((const uint8_t[]){0, SETUP_LENGTH - GUZBYTOR_AT_VERSION, GUZBYTOR_VERSION, GUZBYTOR_KIND_SETUP, servers, (uint8_t)(quota >> 8), (uint8_t)quota}, SETUP_LENGTH);
    for (uint8_t k = 0; k < servers; k++) {
        office.state[k] = lent(office.lengths.state).bytes;
        if (guzbytor_start(office.state[k], office.lengths.state, servers, quota, k) != 0) {
            fail("a start is refused");
        }
    }
}

int main(int count, char **words) {
    int servers = count == 5 ? atoi(words[1]) : 0, quota = count == 5 ? atoi(words[2]) : 0, makers = count == 5 ? atoi(words[3]) : 0;
    if (servers < GUZBYTOR_FEWEST_SERVERS || servers > GUZBYTOR_MOST_SERVERS || quota < GUZBYTOR_LEAST_QUOTA || quota > GUZBYTOR_MOST_QUOTA ||
        makers < 1 || makers > servers) {
        fail("usage: record SERVERS QUOTA MAKERS RUN");
    }
    office.run = fopen(words[4], "wb");
    if (office.run == NULL) {
        fail("the run cannot be written");
    }
    begin((uint8_t)servers, (uint16_t)quota);
    for (uint8_t k = 0; k < servers; k++) {
        event(k, (const uint8_t[]){0, 7, GUZBYTOR_VERSION, GUZBYTOR_KIND_REGULAR, 0, 0, 0, 1, (uint8_t)((1u << servers) - 1)}, GUZBYTOR_AT_BODY + 4 + 1);
    }
    settle();
    for (int made = 0; made < quota; made += REQUESTS) {
        for (uint8_t k = 0; k < makers; k++) {
            for (int i = 0; i < REQUESTS && made + i < quota; i++) {
                request(k);
            }
        }
        settle();
    }
    return fclose(office.run) == 0 ? 0 : 1;
}
