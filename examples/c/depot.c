/* A depot's daemon over a recorded run: it lends the engine each server's state and one outgoing buffer, stores a state before its records are
   sent, and prints for each event what document 01's `replay` prints. The file: a set-up record, then server byte and event, repeated. */
#include "run.h"

#include <string.h>

static const char *const MODES[] = {"Non_prim",         "Reg_prim",  "Trans_prim", "Exchange_states",
                                    "Exchange_actions", "Construct", "No",         "Un"};

/* One server: its running state, and the image that a crash leaves. */
typedef struct {
    buffer state;
    buffer stored;
} server;

/* The stored image, which a daemon writes to its disk and waits for. */
static void store(server *s) {
    memcpy(s->stored.bytes, s->state.bytes, s->state.length);
}

/* A running state and a stored image change places. */
static void exchange_images(server *s) {
    buffer b = s->state;
    s->state = s->stored;
    s->stored = b;
}

/* One event at one server: the answer's records stand at the beginning of `out`, and may be sent. */
static guzbytor_step_answer take(server *s, const uint8_t *event, size_t length, buffer out) {
    int recovery = length > GUZBYTOR_AT_KIND && event[GUZBYTOR_AT_KIND] == GUZBYTOR_KIND_RECOVERY;
    if (recovery) {
        exchange_images(s); /* a recovery is given the image stored last */
    }
    guzbytor_step_answer a = guzbytor_step(s->state.bytes, s->state.length, event, length, out.bytes, out.length);
    if (recovery && a.number != 0) {
        exchange_images(s); /* a refused one leaves the server as it was */
    }
    if (a.store == 1) {
        store(s); /* before anything is sent */
    }
    return a;
}

/* How many records the first `length` bytes of `out` are: a daemon hands each of them to the group layer, in this order. */
static size_t send_records(const uint8_t *out, size_t length) {
    size_t count = 0;
    for (size_t at = 0; at < length; at += record_length(out + at)) {
        count++;
    }
    return count;
}

static void print_line(size_t event, unsigned number, guzbytor_step_answer a, buffer state, size_t sent) {
    guzbytor_summary_answer s = guzbytor_summary(state.bytes, state.length);
    printf("%zu %u %u %s %u %u %u %zu\n", event, number, a.number, MODES[s.state], s.red, s.green, s.primary_index, sent);
}

/* Each event in turn; 0, or the number that the input is refused with. */
static uint32_t run(server *table, uint8_t servers, buffer out, const uint8_t *b, size_t length) {
    for (size_t event = 1; length > 0; event++) {
        uint8_t number = b[0];
        if (number >= servers) {
            return 2;
        }
        if (length < 3 || length - 1 < record_length(b + 1)) {
            return 1;
        }
        size_t count = record_length(b + 1);
        guzbytor_step_answer a = take(&table[number], b + 1, count, out);
        print_line(event, number, a, table[number].state, send_records(out.bytes, a.sent));
        b += 1 + count;
        length -= 1 + count;
    }
    return 0;
}

int main(int count, char **words) {
    if (count != 2) {
        fprintf(stderr, "usage: depot RUN\n");
        return 1;
    }
    buffer input = read_file(words[1]);
    guzbytor_lengths_answer lengths = {0, 0, 0};
    uint32_t refused = set_up(input, &lengths);
    if (refused != 0) {
        printf("setup %u\n", refused);
        free(input.bytes);
        return 0;
    }
    uint8_t servers = input.bytes[SETUP_SERVERS];
    uint32_t quota = setup_quota(input.bytes);
    server table[GUZBYTOR_MOST_SERVERS];
    for (uint8_t k = 0; k < servers; k++) {
        table[k] = (server){lent(lengths.state), lent(lengths.state)};
        if (guzbytor_start(table[k].state.bytes, lengths.state, servers, quota, k) != 0) {
            return 1;
        }
        store(&table[k]); /* a store never written holds the start */
    }
    buffer out = lent(lengths.out);
    printf("event server returned state red green prim sent\n");
    refused = run(table, servers, out, input.bytes + SETUP_LENGTH, input.length - SETUP_LENGTH);
    if (refused != 0) {
        printf("input %u\n", refused);
    }
    for (uint8_t k = 0; k < servers; k++) {
        free(table[k].state.bytes);
        free(table[k].stored.bytes);
    }
    free(out.bytes);
    free(input.bytes);
    return 0;
}
