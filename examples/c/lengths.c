/* Asks for the buffers' lengths with 6 servers and quota 256, and makes the start of server 0. */
#include "guzbytor.h"

#include <stdio.h>
#include <stdlib.h>

int main(void) {
    const uint32_t servers = 6, quota = GUZBYTOR_MOST_QUOTA, me = 0;
    guzbytor_lengths_answer lengths = guzbytor_lengths(servers, quota);
    printf("lengths %u: state %u, outgoing %u\n", lengths.number, lengths.state, lengths.out);
    if (lengths.number != 0) {
        return 1;
    }

    uint8_t *state = malloc(lengths.state);
    if (state == NULL) {
        return 1;
    }
    printf("start %u\n", guzbytor_start(state, lengths.state, servers, quota, me));
    printf("short buffer %u\n", guzbytor_start(state, lengths.state - 1, servers, quota, me));
    printf("own number out of range %u\n", guzbytor_start(state, lengths.state, servers, quota, servers));
    guzbytor_summary_answer s = guzbytor_summary(state, lengths.state);
    printf("summary %u: server %u of %u, quota %u, state %u, last primary %u of set %u\n", s.number, s.me, s.servers, s.quota, s.state, s.primary_index,
           s.primary_set);
    free(state);
    return 0;
}
