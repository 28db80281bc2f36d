/* The verified multiplexer core, for a host in C (C99, C11) or C++ (from C++11), on x86-64 Linux: link libkeshgurvat.a.

   Numbers given back are document 01's: 0 is done, and a refusal leaves all lent memory as it was and hands the state back as it came.
   Behind each call stand its refusals in the order tried. Every call takes every number and every byte; what the C side owes is that a
   pointer is good for the length beside it (not null, also for length 0), that no two buffers of a call overlap where one is written, and
   that a bool is 0 or 1. The calls keep nothing between them: a state belongs to the caller, and two threads may use two states at once.

   A struct that is handed over and back is the whole state. A run hands each call the state and the store that the last one left. */
#ifndef KESHGURVAT_H
#define KESHGURVAT_H
#include <stddef.h>
#include <stdint.h>
#ifdef __cplusplus
#define KESHGURVAT_LAYOUT(fact) static_assert(fact, "the library has another layout")
extern "C" {
#else
#include <stdbool.h>
#if defined __STDC_VERSION__ && __STDC_VERSION__ >= 201112L
#define KESHGURVAT_LAYOUT(fact) _Static_assert(fact, "the library has another layout")
#else
#define KESHGURVAT_JOIN2(a, b) a##b
#define KESHGURVAT_JOIN(a, b) KESHGURVAT_JOIN2(a, b)
#define KESHGURVAT_LAYOUT(fact) typedef char KESHGURVAT_JOIN(keshgurvat_layout_, __LINE__)[(fact) ? 1 : -1]
#endif
#endif
#define KESHGURVAT_FIELD(type, field, at) KESHGURVAT_LAYOUT(offsetof(struct type, field) == (at))

/* Lengths in bytes that 01 fixes. */
#define KESHGURVAT_LONGEST 65528u /* the longest input of a call */
#define KESHGURVAT_QUEUE 4096u    /* a queue's part of the store, an id's part of the receiver's buffer, the longest unit */
#define KESHGURVAT_STORE 12288u   /* the sender's store: queues 0, 1, 2 */
#define KESHGURVAT_BUFFER 16384u  /* the receiver's buffer: ids 0 to 3 */

/* One number for each of the queues 0, 1, 2. */
struct keshgurvat_three {
    size_t a, b, c;
};
KESHGURVAT_LAYOUT(sizeof(struct keshgurvat_three) == 24);
KESHGURVAT_FIELD(keshgurvat_three, a, 0);
KESHGURVAT_FIELD(keshgurvat_three, b, 8);
KESHGURVAT_FIELD(keshgurvat_three, c, 16);

/* p data bytes a packet, n packets a frame; of each queue the packets it is sure of in a frame, and the most it gets. */
struct keshgurvat_settings {
    size_t p, n;
    struct keshgurvat_three share, ceiling;
};
KESHGURVAT_LAYOUT(sizeof(struct keshgurvat_settings) == 64);
KESHGURVAT_FIELD(keshgurvat_settings, p, 0);
KESHGURVAT_FIELD(keshgurvat_settings, n, 8);
KESHGURVAT_FIELD(keshgurvat_settings, share, 16);
KESHGURVAT_FIELD(keshgurvat_settings, ceiling, 40);

/* One queue: its unfinished units in order, with the bytes left of each (places from count on say nothing), and how many bytes of the
   first are sent. */
struct keshgurvat_queue {
    uint16_t left[8];
    size_t count, sent;
};
KESHGURVAT_LAYOUT(sizeof(struct keshgurvat_queue) == 32);
KESHGURVAT_FIELD(keshgurvat_queue, left, 0);
KESHGURVAT_FIELD(keshgurvat_queue, count, 16);
KESHGURVAT_FIELD(keshgurvat_queue, sent, 24);

/* The sender: three queues, whose turn it is to get a spare, the next continuity index of each id, filler (id 3) last, and of queues 0, 1, 2
   the packets that wait and where the unsent bytes begin. No byte of it is padding.
   waiting (E1 of 02) is, of each queue, the packets of p data bytes that its units still take: the bytes left of each unit over p, rounded
   up, and these added up. load and frame keep it; a caller reads it, as the desk display does, and adds up nothing. A state in which one of
   the three differs from that sum, for the p of the call's settings, is 17 in load and in frame, whichever queue it is; so the way to another
   p is to let all three queues run empty. After an accepted load next.waiting[id] is the k of the promise: with a share of s the unit is
   wholly sent within k/s frames, rounded up.
   start (E9 of 02): a queue is a ring in its 4,096 bytes of the store. Byte i of its unsent bytes, which are the bytes left of its units one
   behind the other, is store[4096 * id + (start[id] + i) % 4096]. load leaves start as it is, frame moves it by the useful bytes that it sent,
   modulo 4,096, also where the queue runs empty: which bytes are unsent the units say, and a full ring may begin anywhere. The other bytes of
   the store say nothing and need not be kept: a fresh sender goes with a store of any content, so that none has to be cleared. A store that is
   copied elsewhere as a whole goes on with the state as it is. A start over 4,095 is 17 in load and in frame, whichever queue it is. */
struct keshgurvat_sender {
    struct keshgurvat_queue q[3];
    size_t turn;
    uint8_t index[4];
    uint16_t waiting[3];
    uint16_t start[3];
};
KESHGURVAT_LAYOUT(sizeof(struct keshgurvat_sender) == 120);
KESHGURVAT_FIELD(keshgurvat_sender, q, 0);
KESHGURVAT_FIELD(keshgurvat_sender, turn, 96);
KESHGURVAT_FIELD(keshgurvat_sender, index, 104);
KESHGURVAT_FIELD(keshgurvat_sender, waiting, 108);
KESHGURVAT_FIELD(keshgurvat_sender, start, 114);

/* The answer to a load: the number, and the sender after it. */
struct keshgurvat_loaded {
    uint32_t number;
    struct keshgurvat_sender next;
};
KESHGURVAT_LAYOUT(sizeof(struct keshgurvat_loaded) == 128);
KESHGURVAT_FIELD(keshgurvat_loaded, number, 0);
KESHGURVAT_FIELD(keshgurvat_loaded, next, 8);

/* The answer to a frame: the number, the sender after it, the packets of each queue in the frame, the spares among them, and the filler;
   the counts are 0 where it is refused. */
struct keshgurvat_framed {
    uint32_t number;
    struct keshgurvat_sender next;
    struct keshgurvat_three packets;
    size_t spares, filler;
};
KESHGURVAT_LAYOUT(sizeof(struct keshgurvat_framed) == 168);
KESHGURVAT_FIELD(keshgurvat_framed, number, 0);
KESHGURVAT_FIELD(keshgurvat_framed, next, 8);
KESHGURVAT_FIELD(keshgurvat_framed, packets, 128);
KESHGURVAT_FIELD(keshgurvat_framed, spares, 152);
KESHGURVAT_FIELD(keshgurvat_framed, filler, 160);

/* What the receiver knows of one id: whether a packet of it has come, the index that the next one should have, whether a unit is open, and
   its bytes so far (0 where none is open). */
struct keshgurvat_link {
    bool heard;
    uint8_t index;
    bool begun;
    uint16_t len;
};
KESHGURVAT_LAYOUT(sizeof(struct keshgurvat_link) == 6);
KESHGURVAT_FIELD(keshgurvat_link, heard, 0);
KESHGURVAT_FIELD(keshgurvat_link, index, 1);
KESHGURVAT_FIELD(keshgurvat_link, begun, 2);
KESHGURVAT_FIELD(keshgurvat_link, len, 4);

struct keshgurvat_receiver {
    struct keshgurvat_link link[4];
};
KESHGURVAT_LAYOUT(sizeof(struct keshgurvat_receiver) == 24);
KESHGURVAT_FIELD(keshgurvat_receiver, link, 0);

/* The answer to a packet: the number; whether it completed a unit, and then its id and length: its bytes are the first `length` at
   id * 4,096 of the buffer, until the id's next packet comes; the bytes it dropped; and the receiver after it. id and length are 0 where no
   unit is complete.
   dropped (E5 of 02) counts bytes of the unit that was open for the packet's id; the first of these that holds counts, and once. Another
   index than the next one: the unit's bytes so far. A packet that begins a new unit, so a first one that is not null: the same. A unit that
   would pass 4,096 bytes: its bytes so far and all useful bytes of this packet, 4,097 to 4,351. Otherwise 0, and 0 where it is refused. The
   bytes of a packet that is skipped do not count. A packet that is a whole unit may drop one and complete one, itself. The receiver keeps no
   sum: adding up is the caller's. */
struct keshgurvat_received {
    uint32_t number;
    bool delivered;
    uint8_t id;
    size_t length, dropped;
    struct keshgurvat_receiver next;
};
KESHGURVAT_LAYOUT(sizeof(struct keshgurvat_received) == 48);
KESHGURVAT_FIELD(keshgurvat_received, number, 0);
KESHGURVAT_FIELD(keshgurvat_received, delivered, 4);
KESHGURVAT_FIELD(keshgurvat_received, id, 5);
KESHGURVAT_FIELD(keshgurvat_received, length, 8);
KESHGURVAT_FIELD(keshgurvat_received, dropped, 16);
KESHGURVAT_FIELD(keshgurvat_received, next, 24);

/* Energy dispersal of a block, to the front of the output; applied twice it gives the block back.
   1: input over 65,528 bytes; output shorter than the input. */
uint32_t keshgurvat_disperse(const uint8_t *input, size_t input_length, uint8_t *output, size_t output_length);

/* Whether a packet of p data bytes is whole.
   13: p outside 1 to 255. 1: a length other than p + 3. 16: the check word; a padded packet's count over p - 1. */
uint32_t keshgurvat_packet_check(size_t p, const uint8_t *packet, size_t packet_length);

/* Whether settings are within 01's limits.
   13: p outside 1 to 255; n 0; n (p + 3) over 8,190; a share over its ceiling; a ceiling 0 or over n; shares over n together. */
uint32_t keshgurvat_settings_check(struct keshgurvat_settings settings);

/* A sender with no unit, turn 0, indexes 0, none waiting, starts 0; the store beside it may have any content. No refusals. */
struct keshgurvat_sender keshgurvat_sender_fresh(void);

/* A unit for queue id; its bytes go to the store, behind the unsent ones of its queue, at the front of the queue's 4,096 bytes where they reach
   their end, and no other byte of the store is written. waiting[id] rises by the packets that it takes.
   13: the settings. 17: the state, as 01 lists it, or where one of the three in waiting is not the sum for this p or one of the three in start
   is over 4,095; never in a run from a fresh sender with p unchanged. 1: a store other than 12,288 bytes; a unit over 65,528. 14: a unit empty
   or over 4,096 bytes; id over 2. 15: eight units unfinished, or too few bytes free in the queue. */
struct keshgurvat_loaded keshgurvat_load(struct keshgurvat_sender state, struct keshgurvat_settings settings,
                                         uint8_t *store, size_t store_length, size_t id, const uint8_t *unit, size_t unit_length);

/* The next frame, n (p + 3) bytes, to the front of the output; waiting falls by the packets of each queue in it, and start moves by their
   useful bytes. The store is only read, and may stand where nothing can be written.
   13: the settings. 17: the state, as above. 1: a store other than 12,288 bytes. 1, last: an output under n (p + 3) bytes. */
struct keshgurvat_framed keshgurvat_frame(struct keshgurvat_sender state, struct keshgurvat_settings settings,
                                          const uint8_t *store, size_t store_length, uint8_t *output, size_t output_length);

/* A receiver that no packet has come to. No refusals. */
struct keshgurvat_receiver keshgurvat_receiver_fresh(void);

/* One packet of p data bytes; the useful bytes go to the buffer.
   13: p outside 1 to 255. 17: in any of the four, an index over 7 or an open unit over 4,096. 1: a buffer other than 16,384 bytes; a
   packet other than p + 3. 16: the check word; a padded packet's count over p - 1. */
struct keshgurvat_received keshgurvat_receive(struct keshgurvat_receiver state, size_t p,
                                              uint8_t *buffer, size_t buffer_length, const uint8_t *packet, size_t packet_length);

#undef KESHGURVAT_FIELD
#undef KESHGURVAT_LAYOUT
#ifdef __cplusplus
}
#endif
#endif
