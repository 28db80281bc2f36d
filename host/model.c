#include "model.h"
#include <string.h>

/* ---- dispersal: each bit the sum modulo 2 of those 5 and 9 places before, nine ones before the first */
uint32_t model_disperse(const uint8_t *input, size_t n, uint8_t *output, size_t room) {
    if (n > 65528 || room < n) return 1;
    unsigned char before[9]; /* before[0] is the last bit */
    memset(before, 1, sizeof before);
    for (size_t k = 0; k < 8 * n; k++) {
        unsigned char bit = before[4] ^ before[8];
        memmove(before + 1, before, 8);
        before[0] = bit;
        if (k % 8 == 0) output[k / 8] = input[k / 8];
        output[k / 8] ^= (uint8_t)(bit << (7 - k % 8));
    }
    return 0;
}

/* ---- packets: CRC-16 x^16+x^12+x^5+1, all ones at first, result inverted, a bit at a time (000, annex D) */
static unsigned check_word(const uint8_t *s, size_t n) {
    unsigned r = 0xffff;
    for (size_t k = 0; k < 8 * n; k++) {
        unsigned out = r >> 15 & 1, in = s[k / 8] >> (7 - k % 8) & 1;
        r = r << 1 & 0xffff;
        if (out != in) r ^= 1 << 12 | 1 << 5 | 1;
    }
    return r ^ 0xffff;
}

void model_seal(uint8_t *packet, size_t p) {
    unsigned c = check_word(packet, p + 1);
    packet[p + 1] = (uint8_t)(c >> 8);
    packet[p + 2] = (uint8_t)c;
}

void model_packet(uint8_t *to, size_t p, bool first, bool last, size_t id, size_t index, const uint8_t *useful, size_t n) {
    bool padded = n < p;
    to[0] = (uint8_t)((first ? 128 : 0) + (last ? 64 : 0) + 16 * id + (padded ? 8 : 0) + index);
    memset(to + 1, 0, p);
    if (padded) to[1] = (uint8_t)n;
    if (n) memcpy(to + 1 + padded, useful, n);
    model_seal(to, p);
}

uint32_t model_check(size_t p, const uint8_t *packet, size_t n) {
    if (p < 1 || p > 255) return 13;
    if (n != p + 3) return 1;
    if (check_word(packet, p + 1) != packet[p + 1] * 256u + packet[p + 2]) return 16;
    if ((packet[0] & 8) && packet[1] > p - 1) return 16;
    return 0;
}

/* ---- settings */
static void three(const struct keshgurvat_three *t, size_t to[3]) { to[0] = t->a, to[1] = t->b, to[2] = t->c; }

uint32_t model_settings(const struct keshgurvat_settings *s) {
    size_t share[3], ceiling[3], free = s->n;
    three(&s->share, share), three(&s->ceiling, ceiling);
    if (s->p < 1 || s->p > 255 || s->n < 1 || s->n > 8190 / (s->p + 3)) return 13;
    for (int i = 0; i < 3; i++) {
        if (share[i] > ceiling[i] || ceiling[i] < 1 || ceiling[i] > s->n || share[i] > free) return 13;
        free -= share[i];
    }
    return 0;
}

/* ---- the sender: a queue as the list of its units' lengths left, its unsent bytes in a ring or, as before E9 of 02, at the front */
size_t model_unsent(const struct keshgurvat_queue *q) {
    size_t n = 0;
    for (size_t i = 0; i < q->count && i < 8; i++) n += q->left[i];
    return n;
}

static size_t packets_of(size_t bytes, size_t p) { return bytes / p + (bytes % p != 0); }

size_t model_waiting(const struct keshgurvat_queue *q, size_t p) {
    size_t n = 0;
    for (size_t i = 0; i < q->count && i < 8; i++) n += packets_of(q->left[i], p);
    return n;
}

static bool is_17(const struct keshgurvat_sender *state, size_t p) {
    for (int id = 0; id < 3; id++) {
        const struct keshgurvat_queue *q = &state->q[id];
        if (q->count > 8) return true;
        for (size_t i = 0; i < q->count; i++) {
            size_t sent = i == 0 ? q->sent : 0;
            if (q->left[i] == 0 || sent > 4096 || q->left[i] + sent > 4096) return true;
        }
        if (model_unsent(q) > 4096 || q->sent % p != 0 || (q->count == 0 && q->sent != 0)) return true;
        if (state->waiting[id] != model_waiting(q, p)) return true; /* E1 of 02: the stored count differs from the sum */
    }
    for (int id = 0; id < 4; id++)
        if (state->index[id] > 7) return true;
    return state->turn > 2;
}

enum layout { RINGS, FRONT }; /* E9 of 02, and the one before it, which has no start */

static bool is_astray(const struct keshgurvat_sender *state, enum layout layout) {
    return layout == RINGS && (state->start[0] > 4095 || state->start[1] > 4095 || state->start[2] > 4095);
}

static uint32_t load_number(const struct keshgurvat_sender *state, const struct keshgurvat_settings *s, enum layout layout, size_t room,
                            size_t id, size_t n) {
    if (model_settings(s)) return 13;
    if (is_astray(state, layout) || is_17(state, s->p)) return 17;
    if (room != 12288 || n > 65528) return 1;
    if (n < 1 || n > 4096 || id > 2) return 14;
    return n + model_unsent(&state->q[id]) > 4096 || state->q[id].count >= 8 ? 15 : 0;
}

static void add_unit(struct keshgurvat_sender *state, size_t p, size_t id, size_t n) {
    struct keshgurvat_queue *q = &state->q[id];
    q->left[q->count++] = (uint16_t)n;
    state->waiting[id] = (uint16_t)(state->waiting[id] + packets_of(n, p));
}

/* the place in the store of byte i of a queue that begins at its start */
static size_t place(const struct keshgurvat_sender *state, size_t id, size_t i) { return 4096 * id + (state->start[id] + i) % 4096; }

void model_ring(const struct keshgurvat_sender *state, const uint8_t *store, size_t id, uint8_t line[4096]) {
    for (size_t i = 0; i < 4096; i++) line[i] = store[place(state, id, i)];
}

uint32_t model_load(struct keshgurvat_sender *state, const struct keshgurvat_settings *s, uint8_t *store, size_t room, size_t id,
                    const uint8_t *unit, size_t n) {
    uint32_t number = load_number(state, s, RINGS, room, id, n);
    if (number) return number;
    size_t before = model_unsent(&state->q[id]);
    for (size_t j = 0; j < n; j++) store[place(state, id, before + j)] = unit[j];
    add_unit(state, s->p, id, n);
    return 0;
}

uint32_t model_load_front(struct keshgurvat_sender *state, const struct keshgurvat_settings *s, uint8_t *store, size_t room, size_t id,
                          const uint8_t *unit, size_t n) {
    uint32_t number = load_number(state, s, FRONT, room, id, n);
    if (number) return number;
    memcpy(store + 4096 * id + model_unsent(&state->q[id]), unit, n);
    add_unit(state, s->p, id, n);
    return 0;
}

/* each queue first gets the smaller of share and waiting, as stored; then spares go one at a time, in cyclic order from the turn */
static void hand_out(struct keshgurvat_sender *state, const struct keshgurvat_settings *s, struct model_counts *c) {
    size_t share[3], ceiling[3], total = 0;
    const uint16_t *waiting = state->waiting;
    three(&s->share, share), three(&s->ceiling, ceiling);
    memset(c, 0, sizeof *c);
    for (int id = 0; id < 3; id++) {
        c->packets[id] = share[id] < waiting[id] ? share[id] : waiting[id];
        total += c->packets[id];
    }
    for (size_t passed = 0, id = state->turn; passed < 3 && total < s->n; id = (id + 1) % 3) {
        passed++;
        if (c->packets[id] == waiting[id] || c->packets[id] == ceiling[id]) continue;
        c->packets[id]++, c->spares++, total++, passed = 0;
        state->turn = (id + 1) % 3;
    }
    c->filler = s->n - total;
}

/* one packet of a queue, whose unsent bytes stand in order at `from`; gives its useful bytes */
static size_t send_one(struct keshgurvat_queue *q, size_t p, size_t id, uint8_t index, const uint8_t *from, uint8_t *to) {
    size_t n = q->left[0] < p ? q->left[0] : p;
    bool last = n == q->left[0];
    model_packet(to, p, q->sent == 0, last, id, index, from, n);
    if (last) {
        memmove(q->left, q->left + 1, 7 * sizeof q->left[0]);
        q->count--, q->sent = 0;
    } else {
        q->left[0] = (uint16_t)(q->left[0] - n), q->sent += n;
    }
    return n;
}

/* the packets of one id, to the front of `out`; gives the useful bytes sent, which are the first of the unsent ones, in order, at `from` */
static size_t send_row(struct keshgurvat_sender *state, size_t p, size_t id, size_t packets, const uint8_t *from, uint8_t *out) {
    size_t sent = 0;
    for (size_t k = 0; k < packets; k++, out += p + 3) {
        if (id < 3) sent += send_one(&state->q[id], p, id, state->index[id], from + sent, out);
        else model_packet(out, p, true, true, 3, state->index[3], NULL, 0);
        state->index[id] = (state->index[id] + 1) % 8;
    }
    if (id < 3) state->waiting[id] = (uint16_t)(state->waiting[id] - packets);
    return sent;
}

static uint32_t frame_number(const struct keshgurvat_sender *state, const struct keshgurvat_settings *s, enum layout layout, size_t room,
                             size_t size) {
    if (model_settings(s)) return 13;
    if (is_astray(state, layout) || is_17(state, s->p)) return 17;
    return room != 12288 || size < s->n * (s->p + 3) ? 1 : 0;
}

uint32_t model_frame(struct keshgurvat_sender *state, const struct keshgurvat_settings *s, const uint8_t *store, size_t room, uint8_t *out,
                     size_t size, struct model_counts *counts) {
    memset(counts, 0, sizeof *counts);
    uint32_t number = frame_number(state, s, RINGS, room, size);
    if (number) return number;
    hand_out(state, s, counts);
    for (size_t id = 0; id < 3; id++) {
        uint8_t line[4096];
        model_ring(state, store, id, line);
        size_t sent = send_row(state, s->p, id, counts->packets[id], line, out);
        state->start[id] = (uint16_t)((state->start[id] + sent) % 4096);
        out += counts->packets[id] * (s->p + 3);
    }
    send_row(state, s->p, 3, counts->filler, NULL, out);
    return 0;
}

uint32_t model_frame_front(struct keshgurvat_sender *state, const struct keshgurvat_settings *s, uint8_t *store, size_t room, uint8_t *out,
                           size_t size, struct model_counts *counts) {
    memset(counts, 0, sizeof *counts);
    uint32_t number = frame_number(state, s, FRONT, room, size);
    if (number) return number;
    hand_out(state, s, counts);
    for (size_t id = 0; id < 3; id++) {
        uint8_t *part = store + 4096 * id;
        size_t sent = send_row(state, s->p, id, counts->packets[id], part, out);
        memmove(part, part + sent, model_unsent(&state->q[id]));
        out += counts->packets[id] * (s->p + 3);
    }
    send_row(state, s->p, 3, counts->filler, NULL, out);
    return 0;
}

/* ---- the receiver, in the order of its paragraph; where that drops the open unit, its bytes are counted (E5 of 02) */
uint32_t model_receive(struct keshgurvat_receiver *state, size_t p, uint8_t *buffer, size_t room, const uint8_t *packet, size_t n,
                       struct model_unit *unit) {
    memset(unit, 0, sizeof *unit);
    if (p < 1 || p > 255) return 13;
    for (int id = 0; id < 4; id++)
        if (state->link[id].index > 7 || (state->link[id].begun && state->link[id].len > 4096)) return 17;
    if (room != 16384 || n != p + 3) return 1;
    if (model_check(p, packet, n)) return 16;
    bool first = packet[0] & 128, last = packet[0] & 64, padded = packet[0] & 8;
    size_t id = packet[0] >> 4 & 3, index = packet[0] & 7, useful = padded ? packet[1] : p;
    struct keshgurvat_link *link = &state->link[id];
    size_t length = link->begun ? link->len : 0; /* of the open unit */
    bool open = link->begun;
    if (open && link->heard && link->index != index) open = false, unit->dropped += length;
    link->heard = true, link->index = (uint8_t)((index + 1) % 8);
    if (!(padded && useful == 0 && first && last)) {
        if (first && open) unit->dropped += length;
        if (first) open = true, length = 0;
        if (open && length + useful > 4096) open = false, unit->dropped += length + useful; /* with the packet that did not fit */
        if (open) {
            memcpy(buffer + 4096 * id + length, packet + 1 + padded, useful);
            length += useful;
            if (last) unit->delivered = true, unit->id = id, unit->length = length;
            open = !last;
        }
    }
    link->begun = open, link->len = (uint16_t)(open ? length : 0);
    return 0;
}
