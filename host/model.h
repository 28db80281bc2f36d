/* A second account of document 01 and of E1, E5 and E9 of 02, for the comparison in test.c: from their sentences, on plain lists, one bit or one
   packet at a time, with none of the library's code. Each call acts on its arguments in place and gives the number; a refusal changes
   nothing. */
#ifndef MODEL_H
#define MODEL_H
#include "keshgurvat.h"

/* what a frame or a packet brought, beside the state */
struct model_counts {
    size_t packets[3], spares, filler;
};
struct model_unit {
    bool delivered;
    size_t id, length, dropped; /* dropped: bytes of a unit that was open */
};

uint32_t model_disperse(const uint8_t *input, size_t n, uint8_t *output, size_t room);

/* a packet of p + 3 bytes; the check word of one whose other bytes were changed */
void model_packet(uint8_t *to, size_t p, bool first, bool last, size_t id, size_t index, const uint8_t *useful, size_t n);
void model_seal(uint8_t *packet, size_t p);
uint32_t model_check(size_t p, const uint8_t *packet, size_t n);

uint32_t model_settings(const struct keshgurvat_settings *s);
size_t model_waiting(const struct keshgurvat_queue *q, size_t p); /* packets, added up from the units, of which a queue has eight places */
uint32_t model_load(struct keshgurvat_sender *state, const struct keshgurvat_settings *s, uint8_t *store, size_t room, size_t id,
                    const uint8_t *unit, size_t n);
uint32_t model_frame(struct keshgurvat_sender *state, const struct keshgurvat_settings *s, const uint8_t *store, size_t room, uint8_t *out,
                     size_t size, struct model_counts *counts);

/* the layout before E9 of 02: the unsent bytes of a queue stand at the front of its part, where each frame moves them; start is not looked at */
uint32_t model_load_front(struct keshgurvat_sender *state, const struct keshgurvat_settings *s, uint8_t *store, size_t room, size_t id,
                          const uint8_t *unit, size_t n);
uint32_t model_frame_front(struct keshgurvat_sender *state, const struct keshgurvat_settings *s, uint8_t *store, size_t room, uint8_t *out,
                           size_t size, struct model_counts *counts);

size_t model_unsent(const struct keshgurvat_queue *q); /* bytes, added up from the units */
/* the part of queue id from its start on, so that the unsent bytes come first */
void model_ring(const struct keshgurvat_sender *state, const uint8_t *store, size_t id, uint8_t line[4096]);
uint32_t model_receive(struct keshgurvat_receiver *state, size_t p, uint8_t *buffer, size_t room, const uint8_t *packet, size_t n,
                       struct model_unit *unit);
#endif
