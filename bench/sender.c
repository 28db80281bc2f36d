/* Load and frame in plain C, with the same refusals in the same order. */
#include <string.h>
#include "crc.h"
#include "sender.h"

static int bad_queue(size_t n, size_t share, size_t ceiling) { return ceiling < share || ceiling == 0 || n < ceiling; }

static int bad_settings(const struct keshgurvat_settings *s) {
    size_t p = s->p, n = s->n;
    if (p == 0 || p > 255 || n == 0 || n > 8190 / (p + 3)) return 1;
    if (bad_queue(n, s->share.a, s->ceiling.a) || bad_queue(n, s->share.b, s->ceiling.b) || bad_queue(n, s->share.c, s->ceiling.c)) return 1;
    return n < s->share.a + s->share.b + s->share.c;
}

static size_t unsent(const struct keshgurvat_queue *q) {
    size_t bytes = 0;
    for (size_t i = 0; i < q->count; i++) bytes += q->left[i];
    return bytes;
}

static size_t packets_of(size_t bytes, size_t p) { return (bytes + p - 1) / p; }

/* One pass over the units finds their faults, their bytes, and the packets that wait, which the stored count has to be. */
static int broken_queue(const struct keshgurvat_queue *q, size_t waiting, size_t p) {
    size_t bytes = 0, packets = 0;
    if (q->count > 8) return 1;
    for (size_t i = 0; i < q->count; i++) {
        if (q->left[i] == 0) return 1;
        bytes += q->left[i];
        packets += packets_of(q->left[i], p);
    }
    if (bytes > 4096 || packets != waiting || q->sent % p != 0) return 1;
    if (q->count == 0) return q->sent > 0;
    return q->sent > 4096 || q->left[0] + q->sent > 4096;
}

static int broken(const struct keshgurvat_sender *s, size_t p) {
    for (int i = 0; i < 3; i++)
        if (s->start[i] > 4095 || broken_queue(&s->q[i], s->waiting[i], p)) return 1;
    if (s->turn > 2) return 1;
    for (int i = 0; i < 4; i++)
        if (s->index[i] > 7) return 1;
    return 0;
}

/* Bytes into a queue's ring and out of it, from place `at` of its part on: in two pieces where they reach its end. */
static void copy_in(uint8_t *part, size_t at, const uint8_t *bytes, size_t n) {
    size_t room = 4096 - at;
    if (n <= room) {
        memcpy(part + at, bytes, n);
    } else {
        memcpy(part + at, bytes, room);
        memcpy(part, bytes + room, n - room);
    }
}
static void copy_out(uint8_t *to, const uint8_t *part, size_t at, size_t n) {
    size_t room = 4096 - at;
    if (n <= room) {
        memcpy(to, part + at, n);
    } else {
        memcpy(to, part + at, room);
        memcpy(to + room, part, n - room);
    }
}

uint32_t plain_load(struct keshgurvat_sender *state, const struct keshgurvat_settings *settings, uint8_t *store, size_t store_len,
                    size_t id, const uint8_t *unit, size_t unit_len) {
    if (bad_settings(settings)) return 13;
    if (broken(state, settings->p)) return 17;
    if (store_len != 12288 || unit_len > 65528) return 1;
    if (unit_len == 0 || unit_len > 4096 || id > 2) return 14;
    struct keshgurvat_queue *q = &state->q[id];
    size_t bytes = unsent(q);
    if (q->count >= 8 || unit_len + bytes > 4096) return 15;
    copy_in(store + id * 4096, (state->start[id] + bytes) % 4096, unit, unit_len);
    q->left[q->count++] = (uint16_t)unit_len;
    state->waiting[id] += (uint16_t)packets_of(unit_len, settings->p);
    return 0;
}

/* How many packets each queue gets, by what is stored as waiting: its share first, then spares one at a time from the turn on. */
static void hand_out(struct keshgurvat_sender *state, const struct keshgurvat_settings *s, struct plain_framed *f) {
    size_t share[3] = {s->share.a, s->share.b, s->share.c}, ceiling[3] = {s->ceiling.a, s->ceiling.b, s->ceiling.c}, cap[3], sum = 0;
    for (int i = 0; i < 3; i++) {
        size_t w = state->waiting[i];
        f->packets[i] = share[i] < w ? share[i] : w;
        cap[i] = w < ceiling[i] ? w : ceiling[i];
        sum += f->packets[i];
    }
    f->spares = 0;
    while (sum < s->n) {
        size_t i = state->turn, tried = 0;
        while (tried < 3 && f->packets[i] >= cap[i]) {
            i = i == 2 ? 0 : i + 1;
            tried++;
        }
        if (tried == 3) break;
        f->packets[i]++;
        state->turn = i == 2 ? 0 : i + 1;
        f->spares++;
        sum++;
    }
    f->filler = s->n - sum;
}

/* A packet with n useful bytes, which begin at place `at` of a queue's part. */
static void put_packet(size_t p, uint8_t head, const uint8_t *part, size_t at, size_t n, uint8_t *out) {
    if (n < p) {
        out[0] = head | 8;
        out[1] = (uint8_t)n;
        copy_out(out + 2, part, at, n);
        memset(out + 2 + n, 0, p - 1 - n);
    } else {
        out[0] = head;
        copy_out(out + 1, part, at, p);
    }
    uint16_t word = plain_crc16(out, p + 1);
    out[p + 1] = (uint8_t)(word >> 8);
    out[p + 2] = (uint8_t)word;
}

/* The next n packets of a queue, which wait no longer; its ring then begins behind their bytes. */
static uint8_t *put_row(struct keshgurvat_sender *state, size_t p, size_t id, size_t n, const uint8_t *part, uint8_t *out) {
    struct keshgurvat_queue *q = &state->q[id];
    size_t at = state->start[id];
    for (size_t k = 0; k < n; k++) {
        size_t left = q->left[0], use = left < p ? left : p;
        int last = left <= p;
        put_packet(p, (uint8_t)((q->sent == 0) << 7 | last << 6 | id << 4 | state->index[id]), part, at, use, out);
        at = (at + use) % 4096;
        out += p + 3;
        state->index[id] = (state->index[id] + 1) & 7;
        if (last) {
            memmove(q->left, q->left + 1, 7 * sizeof q->left[0]);
            q->left[7] = 0;
            q->count--;
            q->sent = 0;
        } else {
            q->left[0] = (uint16_t)(left - p);
            q->sent += p;
        }
    }
    state->waiting[id] -= (uint16_t)n;
    state->start[id] = (uint16_t)at;
    return out;
}

uint32_t plain_frame(struct keshgurvat_sender *state, const struct keshgurvat_settings *settings, const uint8_t *store, size_t store_len,
                     uint8_t *out, size_t out_len, struct plain_framed *framed) {
    size_t p = settings->p;
    if (bad_settings(settings)) return 13;
    if (broken(state, p)) return 17;
    if (store_len != 12288 || out_len < settings->n * (p + 3)) return 1;
    hand_out(state, settings, framed);
    for (size_t id = 0; id < 3; id++) out = put_row(state, p, id, framed->packets[id], store + id * 4096, out);
    for (size_t k = 0; k < framed->filler; k++) {
        put_packet(p, (uint8_t)(0xf0 | state->index[3]), store, 0, 0, out);
        state->index[3] = (state->index[3] + 1) & 7;
        out += p + 3;
    }
    return 0;
}
