/* The sender of a shared stream in plain C: the state stays with the caller and is changed through a pointer. */
#ifndef SENDER_H
#define SENDER_H
#include "../host/keshgurvat.h"
struct plain_framed {
    size_t packets[3], spares, filler;
};
uint32_t plain_load(struct keshgurvat_sender *state, const struct keshgurvat_settings *settings, uint8_t *store, size_t store_len,
                    size_t id, const uint8_t *unit, size_t unit_len);
uint32_t plain_frame(struct keshgurvat_sender *state, const struct keshgurvat_settings *settings, const uint8_t *store, size_t store_len,
                     uint8_t *out, size_t out_len, struct plain_framed *framed);
#endif
