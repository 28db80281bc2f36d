/* The receiver in plain C: its record stays with the caller and is changed through a pointer. */
#ifndef RECEIVER_H
#define RECEIVER_H
#include "../host/keshgurvat.h"
struct plain_received {
    bool delivered;
    uint8_t id;
    size_t length, dropped;
};
uint32_t plain_receive(struct keshgurvat_receiver *state, size_t p, uint8_t *buffer, size_t buffer_len, const uint8_t *packet,
                       size_t packet_len, struct plain_received *received);
#endif
