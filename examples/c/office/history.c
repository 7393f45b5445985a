#include "history.h"

uint64_t summed(uint64_t sum, const uint8_t *bytes, size_t length) {
    for (size_t i = 0; i < length; i++) {
        sum = (sum ^ bytes[i]) * 0x100000001B3u;
    }
    return sum;
}

history history_start(void) { return (history){.sum = 0xCBF29CE484222325u}; }

int history_add(history *h, const uint8_t *entries, size_t length) {
    size_t at = 0;
    uint32_t count = 0;
    for (; length - at >= ENTRY_FRONT && length - at >= entry_length(entries + at); at += entry_length(entries + at)) {
        count++;
    }
    if (at != length) {
        return 0;
    }
    if (h->room - h->length < length) {
        h->room = 2 * (h->length + length);
        h->bytes = grown(h->bytes, h->room);
    }
    memcpy(h->bytes + h->length, entries, length);
    h->sum = summed(h->sum, entries, length);
    h->length += length;
    h->count += count;
    return 1;
}

void history_whiten(history *h, uint32_t white, uint8_t me) {
    for (; h->white < white; h->white++) {
        const uint8_t *entry = h->bytes + h->white_length;
        h->own_white += entry[0] == me;
        h->white_length += entry_length(entry);
    }
}
