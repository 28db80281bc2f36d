/* usage: bench list                    the rows, one to a line: name, turns that are enough to count it
          bench NAME rattle|c|idle N    runs one of the two codes N times, or what stands around it alone, and prints a sum of its answers
          bench NAME_bytes rattle|c 1   prints the bytes that the call moves
   The number of instructions of a run of the second form is what count.sh compares. */
#include <stdio.h>
#include <stdlib.h>
#include <string.h>
#include "crc.h"
#include "disperse.h"
#include "mdi.h"
#include "meter.h"
#include "packet.h"
#include "receiver.h"
#include "sender.h"

static uint8_t buf[1024], out[8192];

/* A packet of 255 data bytes with a right check word: all of it is gone through. */
static uint8_t packet[258];
static void seal(uint8_t *s, size_t n) {
    uint16_t word = plain_crc16(s, n);
    s[n] = (uint8_t)(word >> 8);
    s[n + 1] = (uint8_t)word;
}

/* ---- the shared stream: 63 packets of 127 data bytes, 8,190 bytes a frame; every queue has more than it may send */
static const struct keshgurvat_settings settings = {127, 63, {16, 16, 16}, {40, 40, 40}}, wrong = {0, 63, {16, 16, 16}, {40, 40, 40}},
    single = {127, 1, {1, 0, 0}, {1, 1, 1}}; /* frames of one packet */
static uint8_t store[12288], buffer[16384], unit[1000], units[8][130];
static struct keshgurvat_sender busy, half, half_late, full, full_late, state;
static struct keshgurvat_receiver link;
static struct plain_framed framed;
static struct plain_received received;

static uint32_t load_rattle(const struct keshgurvat_settings *s) {
    struct keshgurvat_loaded r = keshgurvat_load(state, *s, store, sizeof store, 1, unit, sizeof unit);
    state = r.next;
    return r.number;
}
static uint32_t frame_rattle(const struct keshgurvat_settings *s) {
    struct keshgurvat_framed r = keshgurvat_frame(state, *s, store, sizeof store, out, sizeof out);
    state = r.next;
    framed.packets[0] = r.packets.a;
    framed.packets[1] = r.packets.b;
    framed.packets[2] = r.packets.c;
    framed.spares = r.spares;
    framed.filler = r.filler;
    return r.number;
}
static uint32_t receive_rattle(size_t p, const uint8_t *s) {
    struct keshgurvat_received r = keshgurvat_receive(link, p, buffer, sizeof buffer, s, 130);
    link = r.next;
    received.delivered = r.delivered;
    received.id = r.id;
    received.length = r.length;
    received.dropped = r.dropped;
    return r.number;
}
#define LOAD_C(s) plain_load(&state, s, store, sizeof store, 1, unit, sizeof unit)
#define FRAME_C(s) plain_frame(&state, s, store, sizeof store, out, sizeof out, &framed)
#define RECEIVE_C(p, s) plain_receive(&link, p, buffer, sizeof buffer, s, 130, &received)

static void fill_stream(void) {
    for (size_t i = 0; i < sizeof store; i += 3) store[i] = (uint8_t)(i * 57 + 3);
    for (size_t i = 0; i < sizeof unit; i++) unit[i] = (uint8_t)(i * 91 + 7);
    for (int k = 0; k < 3; k++) { /* units of 500 bytes, as news pages are: 4,000 bytes and 32 packets a queue */
        busy.q[k].count = 8;
        for (int j = 0; j < 8; j++) busy.q[k].left[j] = 500;
        busy.waiting[k] = 32;
        half.q[k].count = 4;
        for (int j = 0; j < 4; j++) half.q[k].left[j] = 500;
        half.waiting[k] = 16;
    }
    full.q[0] = (struct keshgurvat_queue){{4096}, 1, 0}; /* one unit, 33 packets: not a byte is free in queue 0 */
    full.waiting[0] = 33;
    half_late = half, half_late.start[1] = 1600; /* a unit that is loaded then wraps */
    full_late = full, full_late.start[0] = 4032; /* and so does the first packet */
    for (int k = 0; k < 8; k++) { /* two units of four packets */
        units[k][0] = (uint8_t)((k % 4 == 0) << 7 | (k % 4 == 3) << 6 | 1 << 4 | k);
        for (int j = 1; j < 128; j++) units[k][j] = (uint8_t)(j * 29 + k);
        seal(units[k], 128);
    }
}

/* The bytes that a frame of one packet moves where its queue is full, the most over starts all along the ring (E9 of 02): those of the store
   that are others after it, and those that are in the packet's data. A byte of the store differs from the one 127 places on, and the packet's
   place from what it gets, so each move shows. */
static size_t bytes_moved(int rattle) {
    static uint8_t before[sizeof store];
    size_t most = 0;
    for (size_t start = 0; start < 4096; start += 45) { /* the last is 4,095; of the last three the data wraps */
        size_t moved = 0;
        for (size_t i = 0; i < sizeof store; i++) before[i] = store[i] = (uint8_t)(i * 57 + 3);
        for (size_t i = 0; i < 127; i++) out[1 + i] = (uint8_t)(before[(start + i) % 4096] + 1);
        state = full;
        state.start[0] = (uint16_t)start;
        if (rattle ? frame_rattle(&single) : FRAME_C(&single)) exit(2);
        for (size_t i = 0; i < sizeof store; i++) moved += store[i] != before[i];
        for (size_t i = 0; i < 127; i++) moved += out[1 + i] != (uint8_t)(before[(start + i) % 4096] + 1);
        if (moved > most) most = moved;
    }
    return most;
}

/* ---- the MDI packet: every known item but two of the streams, 100 bytes of SDC data, streams of 1,000 and 200 bytes */
static uint8_t fac[9] = {0x06, 0x0a, 0x0e, 0x1c, 0x23, 0x80, 0xa0, 0x80}, sdc[103], tist[8] = {0, 0x14, 0, 0, 0, 0, 5, 0x90};
static const uint8_t sdci[7] = {0, 0, 0x03, 0xe8, 0, 0, 0xc8};
static uint8_t stream[2][1000], mdi[2048];
static size_t mdi_len;
static struct plain_record rec;
#define MODE 1

static struct plain_bytes streams[4] = {{stream[0], 1000}, {stream[1], 200}, {stream[0], 0}, {stream[1], 0}};
static uint32_t write_c(uint32_t count) {
    size_t length;
    rec.count = count;
    plain_mdi_fac(&rec.fac, fac);
    plain_mdi_sdc(&rec.sdc, sdc, sizeof sdc);
    plain_mdi_description(&rec.description, sdci, sizeof sdci);
    rec.robustness = MODE;
    plain_mdi_stamp(&rec.time, tist);
    return plain_mdi_write(&rec, streams, out, sizeof out, &length);
}
static uint32_t write_rattle(uint32_t count) {
    return meter_mdi_write(count, fac, sizeof fac, sdc, sizeof sdc, sdci, sizeof sdci, MODE, tist, sizeof tist, stream[0], 1000, stream[1], 200,
                           stream[0], 0, stream[1], 0, out, sizeof out);
}
static uint32_t read_c(const uint8_t *s, size_t n, size_t at) {
    size_t place;
    uint32_t number = plain_mdi_read(s, n, &rec, &place);
    return number + rec.count + rec.fac.service + rec.robustness + rec.sdc.body[at];
}
static uint32_t read_rattle(const uint8_t *s, size_t n, size_t at) {
    struct meter_seen r = meter_mdi_read(s, n, at);
    return r.number + r.count + r.service + r.robustness + r.byte;
}

/* 8,191 empty items, none of them known: refused with 4, once all names were looked at. The names count up from 0, are drawn at random, or
   count up in their high bits, so that the low 19 bits of all of them are the same. */
static uint8_t ordered[65528], drawn[65528], shared[65528];
static void put_name(uint8_t *s, uint32_t name) {
    for (int i = 0; i < 4; i++) s[i] = (uint8_t)(name >> 8 * (3 - i));
}
static void fill_hostile(void) {
    uint32_t x = 2463534242;
    for (uint32_t i = 0; i < 8191; i++) {
        put_name(ordered + 8 * i, i);
        put_name(shared + 8 * i, i << 19);
        put_name(drawn + 8 * i, x);
        x ^= x << 13, x ^= x >> 17, x ^= x << 5; /* of full period: no name comes twice */
    }
}
static void fill_mdi(void) {
    fac[8] = plain_crc8(fac, 8);
    sdc[0] = 5;
    for (int i = 1; i < 101; i++) sdc[i] = (uint8_t)(i * 3);
    seal(sdc, 101);
    for (int i = 0; i < 1000; i++) stream[0][i] = (uint8_t)(i * 7), stream[1][i] = (uint8_t)(i * 11);
    write_c(7);
    mdi_len = 16 + 12 + 17 + 111 + 15 + 9 + 1008 + 208 + 16;
    memcpy(mdi, out, mdi_len);
    memset(out, 0, sizeof out);
}

/* One line a row: its name, how many turns are enough to count it, what is done before each call and is not counted, the proved code, and
   the plain C that it is compared with. A row `X_state` is call X refused by its first test: the cost of handing the state over and back.
   The answer of a row `X_bytes` is how many bytes call X moves. */
#define CALLS(X) \
    X(crc8, 4, , meter_crc8(buf, sizeof buf), plain_crc8(buf, sizeof buf)) \
    X(crc16, 4, , meter_crc16(buf, sizeof buf), plain_crc16(buf, sizeof buf)) \
    X(disperse, 4, , meter_disperse(buf, sizeof buf, out, sizeof buf), plain_disperse(buf, sizeof buf, out, sizeof buf)) \
    X(packet_check, 8, , meter_check(255, packet, sizeof packet), plain_check(255, packet, sizeof packet)) \
    X(frame, 2, state = busy, frame_rattle(&settings), FRAME_C(&settings)) \
    X(frame_state, 8, state = busy, frame_rattle(&wrong), FRAME_C(&wrong)) \
    X(frame_one, 8, state = full, frame_rattle(&single), FRAME_C(&single)) \
    X(frame_one_wraps, 8, state = full_late, frame_rattle(&single), FRAME_C(&single)) \
    X(frame_one_bytes, 1, , bytes_moved(1), bytes_moved(0)) \
    X(load, 8, state = half, load_rattle(&settings), LOAD_C(&settings)) \
    X(load_wraps, 8, state = half_late, load_rattle(&settings), LOAD_C(&settings)) \
    X(load_state, 8, state = half, load_rattle(&wrong), LOAD_C(&wrong)) \
    X(receive, 8, , receive_rattle(127, units[i % 8]), RECEIVE_C(127, units[i % 8])) \
    X(receive_state, 8, , receive_rattle(0, units[i % 8]), RECEIVE_C(0, units[i % 8])) \
    X(mdi_read, 4, , read_rattle(mdi, mdi_len, i % 128), read_c(mdi, mdi_len, i % 128)) \
    X(mdi_write, 4, , write_rattle((uint32_t)i), write_c((uint32_t)i)) \
    X(mdi_read_ordered, 1, , read_rattle(ordered, sizeof ordered, 0), read_c(ordered, sizeof ordered, 0)) \
    X(mdi_read_random, 1, , read_rattle(drawn, sizeof drawn, 0), read_c(drawn, sizeof drawn, 0)) \
    X(mdi_read_shared, 1, , read_rattle(shared, sizeof shared, 0), read_c(shared, sizeof shared, 0))

/* Each turn changes a byte first, so that no two turns are alike. */
#define TIMES(before, answer) \
    for (long i = 0; i < n; i++) { \
        buf[0] = (uint8_t)i; \
        before; \
        sum = sum * 31 + (answer); \
    }

#define NAME(name, turns, before, rattle, c) puts(#name " " #turns);
#define RUN(name, turns, before, rattle, c) \
    if (!strcmp(call, #name)) { \
        found = 1; \
        if (!strcmp(mode, "rattle")) TIMES(before, rattle) \
        else if (!strcmp(mode, "c")) TIMES(before, c) \
        else TIMES(before, *still) \
    }

/* All that a call may have written. The places of `left` behind `count` say nothing and are left out. */
static unsigned long long sum_of(const void *at, size_t n, unsigned long long sum) {
    for (size_t i = 0; i < n; i++) sum = sum * 31 + ((const uint8_t *)at)[i];
    return sum;
}
static unsigned long long sum_wide(const void *at, size_t n, unsigned long long sum) { /* eight bytes at a time: it is counted too */
    unsigned long long x;
    for (size_t i = 0; i < n; i += 8) {
        memcpy(&x, (const uint8_t *)at + i, 8);
        sum = (sum ^ x) * 0x9e3779b97f4a7c15;
    }
    return sum;
}
static unsigned long long sum_all(unsigned long long sum) {
    sum = sum_wide(out, sizeof out, sum_wide(store, sizeof store, sum_wide(buffer, sizeof buffer, sum)));
    for (int k = 0; k < 3; k++)
        sum = sum_of(state.q[k].left, 2 * state.q[k].count, sum) * 31 + state.q[k].sent;
    sum = sum_of(state.index, 4, sum) * 31 + state.turn;
    for (int k = 0; k < 3; k++) sum = (sum * 31 + state.waiting[k]) * 31 + state.start[k];
    for (int k = 0; k < 4; k++)
        sum = (((sum * 31 + link.link[k].heard) * 31 + link.link[k].index) * 31 + link.link[k].begun) * 31 + link.link[k].len;
    for (int k = 0; k < 3; k++) sum = sum * 31 + framed.packets[k];
    sum = (sum * 31 + framed.spares) * 31 + framed.filler;
    return (((sum * 31 + received.delivered) * 31 + received.id) * 31 + received.length) * 31 + received.dropped;
}

int main(int argc, char **argv) {
    if (argc == 2 && !strcmp(argv[1], "list")) {
        CALLS(NAME)
        return 0;
    }
    if (argc != 4) return 2;
    const char *call = argv[1], *mode = argv[2];
    int found = 0;
    long n = strtol(argv[3], NULL, 10);
    volatile unsigned none = 0, *still = &none;
    unsigned long long sum = 0;
    for (size_t i = 0; i < sizeof buf; i++) buf[i] = (uint8_t)(i * 167 + 13);
    plain_crc_fill();
    for (size_t i = 1; i < 256; i++) packet[i] = (uint8_t)(i * 91 + 5);
    seal(packet, 256);
    fill_stream();
    fill_mdi();
    if (!strncmp(call, "mdi_read_", 9)) fill_hostile();
    CALLS(RUN)
    if (!found) return 2;
    if (strstr(call, "_bytes")) {
        printf("%llu\n", sum);
        return 0;
    }
    printf("%llx\n", sum_all(sum) | 1ull << 63); /* 16 digits for every sum: they are counted too */
    return 0;
}
