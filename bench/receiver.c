/* One packet to the receiver in plain C, with the same refusals in the same order. */
#include <string.h>
#include "packet.h"
#include "receiver.h"

uint32_t plain_receive(struct keshgurvat_receiver *state, size_t p, uint8_t *buffer, size_t buffer_len, const uint8_t *packet,
                       size_t packet_len, struct plain_received *received) {
    received->delivered = false;
    received->id = 0;
    received->length = 0;
    received->dropped = 0;
    if (p == 0 || p > 255) return 13;
    for (int i = 0; i < 4; i++)
        if (state->link[i].index > 7 || (state->link[i].begun && state->link[i].len > 4096)) return 17;
    if (buffer_len != 16384) return 1;
    uint32_t number = plain_check(p, packet, packet_len);
    if (number) return number;
    uint8_t head = packet[0], id = head >> 4 & 3, index = head & 7;
    bool first = head >> 7, last = head >> 6 & 1, padded = head >> 3 & 1;
    size_t n = padded ? packet[1] : p;
    struct keshgurvat_link *l = &state->link[id];
    if (l->begun && l->heard && l->index != index) {
        received->dropped = l->len;
        l->begun = false;
    }
    l->heard = true;
    l->index = (index + 1) & 7;
    if (!l->begun) l->len = 0;
    if (first && last && n == 0) return 0;
    if (first) {
        received->dropped += l->len; /* 0 where no unit is open any more */
        l->begun = true;
        l->len = 0;
    }
    if (!l->begun) return 0;
    size_t len = l->len + n;
    if (len <= 4096) {
        memcpy(buffer + id * 4096 + l->len, packet + (padded ? 2 : 1), n);
        if (!last) {
            l->len = (uint16_t)len;
            return 0;
        }
        received->delivered = true;
        received->id = id;
        received->length = len;
    } else {
        received->dropped = len; /* no break and no first packet comes here: either is skipped, or fits */
    }
    l->begun = false;
    l->len = 0;
    return 0;
}
