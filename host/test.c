/* Every call of keshgurvat.h on many inputs (valid, damaged, at the limits), compared with the second account in model.c. Each buffer
   stands between guard bytes; whatever the model leaves as it was, the library must. Loads and frames are held against the layout before
   E9 of 02 too.
   usage: test [SEED]; the last line is 'N passed, M failed', the status 0 only where M is 0. */
#include <stdio.h>
#include <stdlib.h>
#include <string.h>
#include "model.h"

static unsigned long passed, failed;
static void check(bool ok, const char *what, unsigned long number) {
    if (ok) passed++;
    else if (failed++ < 20) printf("%s: case %lu differs\n", what, number);
}

/* ---- how often each call gave each number: one that never came up was not tried */
enum call { DISPERSE, CHECK, SETTINGS, LOAD, FRAME, RECEIVE, CALLS };
static unsigned long seen[CALLS][32];
static void saw(enum call call, uint32_t number) { seen[call][number % 32]++; }
static void test_seen(void) {
    static const struct { const char *name; uint8_t numbers[7]; } all[CALLS] = { /* the last number of each is 0 */
        {"disperse", {1, 0}}, {"packet check", {13, 1, 16, 0}}, {"settings check", {13, 0}},
        {"load", {13, 17, 1, 14, 15, 0}}, {"frame", {13, 17, 1, 0}}, {"receive", {13, 17, 1, 16, 0}}};
    for (int c = 0; c < CALLS; c++) {
        printf("%-14s", all[c].name);
        for (const uint8_t *n = all[c].numbers;; n++) {
            printf("  %u: %lu", *n, seen[c][*n]);
            check(seen[c][*n] > 0, all[c].name, *n);
            if (*n == 0) break;
        }
        printf("\n");
    }
}

/* ---- how often each cause dropped a byte or more of an open unit; a break alone, with a first flag, and by a null packet */
enum cause { BREAK, BREAK_FIRST, BREAK_NULL, FIRST, OVERLENGTH, CAUSES };
static unsigned long causes[CAUSES];
static void saw_dropped(const struct keshgurvat_link link[4], const uint8_t *packet, size_t dropped) { /* link: before the packet */
    const struct keshgurvat_link *l = &link[packet[0] >> 4 & 3];
    bool null = packet[0] >> 6 == 3 && (packet[0] & 8) && packet[1] == 0;
    if (dropped == 0) return;
    if (l->heard && l->index != (packet[0] & 7)) causes[null ? BREAK_NULL : packet[0] & 128 ? BREAK_FIRST : BREAK]++;
    else causes[packet[0] & 128 ? FIRST : OVERLENGTH]++;
}

/* ---- stored counts (E1 of 02): how often one that is not the sum came to a load [0] or a frame [1], by what stood there instead, and by
   what was wrong beside it; and how often a call had another p than the last */
enum kind { ONE_MORE, ONE_LESS, CEILING, UNITS, BYTES, OTHER_P, EXCHANGED, LARGEST, ANY, KINDS };
enum beside { NOTHING, NOT_LOADED, BAD_SETTINGS, SHORT_STORE, NINE_UNITS, BESIDES };
enum change { EMPTY, EQUAL, EQUAL_SENT, UNEQUAL, CHANGES };
static unsigned long kinds[2][KINDS], besides[BESIDES], changes[CHANGES];

/* ---- starts (E9 of 02): how often one over 4,095 came to a load [0] or a frame [1], by what it was, and by what was wrong beside it; and how
   often a unit or the useful bytes of a packet came to the end of a ring, a ring was full, and a queue ran empty, with a start that is not 0 */
enum stray { FIRST_OVER, LAST_OVER, ANY_OVER, STRAYS };
enum with { ALONE, NO_UNITS, OTHER_QUEUE, WITH_SETTINGS, WITH_STORE, WITH_COUNT, WITH_UNITS, WITHS };
enum turned { UNIT_WRAPS, UNIT_TO_END, UNIT_AT_FRONT, FULL, WRAPS, PADDED_WRAPS, TO_END, EMPTIED, TURNEDS };
static unsigned long strays[2][STRAYS], withs[WITHS], turned[TURNEDS];

static void often(const char *title, const char *const name[], const unsigned long met[], int n) {
    printf("%-14s", title);
    for (int i = 0; i < n; i++) {
        printf("  %s: %lu", name[i], met[i]);
        check(met[i] >= 100, title, (unsigned long)i); /* the cases worked out by hand are a few of each */
    }
    printf("\n");
}
static void test_often(void) {
    static const char *const cause[CAUSES] = {"break", "break and first", "break and null", "first", "overlength"};
    static const char *const kind[KINDS] = {"one more", "one less", "ceiling", "units", "bytes", "other p", "exchanged", "65535", "any"};
    static const char *const beside[BESIDES] = {"nothing", "not loaded", "settings", "store", "nine units"};
    static const char *const change[CHANGES] = {"empty", "equal", "equal, sent otherwise", "unequal"};
    often("bytes dropped", cause, causes, CAUSES);
    often("counts, load", kind, kinds[0], KINDS), often("counts, frame", kind, kinds[1], KINDS);
    often("and wrong", beside, besides, BESIDES), often("another p", change, changes, CHANGES);
    static const char *const stray[STRAYS] = {"4096", "65535", "any over 4095"};
    static const char *const with[WITHS] = {"nothing", "no units", "other queue", "settings", "store", "a count", "nine units"};
    static const char *const round[TURNEDS] = {"unit wraps", "unit to the end", "unit at the front", "full", "packet wraps", "padded packet wraps",
                                               "packet to the end", "emptied"};
    often("starts, load", stray, strays[0], STRAYS), often("starts, frame", stray, strays[1], STRAYS);
    often("and wrong", with, withs, WITHS), often("rings", round, turned, TURNEDS);
}

/* ---- chance */
static uint64_t chance;
static uint64_t draw(void) { /* splitmix64 */
    uint64_t z = (chance += 0x9e3779b97f4a7c15u);
    z = (z ^ z >> 30) * 0xbf58476d1ce4e5b9u;
    z = (z ^ z >> 27) * 0x94d049bb133111ebu;
    return z ^ z >> 31;
}
static size_t below(size_t n) { return (size_t)(draw() % n); }
static bool one_in(size_t n) { return below(n) == 0; }
#define ONE_OF(list) ((list)[below(sizeof(list) / sizeof(list)[0])])

/* ---- lent buffers: `ours` is what the library gets, at any alignment and between guard bytes, `model` what the model gets */
enum { GUARD = 32, MOST = 65600 };
struct lent {
    uint8_t room[GUARD + 8 + MOST + GUARD], model[MOST], *ours;
    size_t length;
};
static struct lent input, output, store, buffer;

static uint8_t guard(size_t i) { return (uint8_t)(0xa5 ^ 29 * i); }
static void any_bytes(uint8_t *to, size_t n) {
    for (size_t i = 0; i < n; i += 8) {
        uint64_t any = draw();
        memcpy(to + i, &any, n - i < 8 ? n - i : 8);
    }
}
static void lend(struct lent *b, const uint8_t *bytes, size_t n) { /* where no bytes are given, any */
    b->ours = b->room + GUARD + below(8);
    b->length = n;
    if (bytes) memcpy(b->model, bytes, n);
    else any_bytes(b->model, n);
    memcpy(b->ours, b->model, n);
    for (size_t i = 0; i < GUARD; i++) b->ours[-1 - (long)i] = b->ours[n + i] = guard(i);
}
static bool settled(const struct lent *b) { /* as the model left it, and nothing beside it touched */
    for (size_t i = 0; i < GUARD; i++)
        if (b->ours[-1 - (long)i] != guard(i) || b->ours[b->length + i] != guard(i)) return false;
    return memcmp(b->ours, b->model, b->length) == 0;
}

/* ---- what states have in common */
static bool same_queue(const struct keshgurvat_queue *a, const struct keshgurvat_queue *b, size_t places) {
    return a->count == b->count && a->sent == b->sent && memcmp(a->left, b->left, places * sizeof a->left[0]) == 0;
}
/* all of it where nothing may change; else the places that say something; the starts apart */
static bool same_but_start(const struct keshgurvat_sender *a, const struct keshgurvat_sender *b, bool all) {
    for (int i = 0; i < 3; i++)
        if (!same_queue(&a->q[i], &b->q[i], all || a->q[i].count > 8 ? 8 : a->q[i].count)) return false;
    return a->turn == b->turn && memcmp(a->index, b->index, sizeof a->index) == 0 && memcmp(a->waiting, b->waiting, sizeof a->waiting) == 0;
}
static bool same_sender(const struct keshgurvat_sender *a, const struct keshgurvat_sender *b, bool all) {
    return same_but_start(a, b, all) && memcmp(a->start, b->start, sizeof a->start) == 0;
}
static bool astray(const struct keshgurvat_sender *t) { return t->start[0] > 4095 || t->start[1] > 4095 || t->start[2] > 4095; }
static bool same_receiver(const struct keshgurvat_receiver *a, const struct keshgurvat_receiver *b) {
    for (int i = 0; i < 4; i++) {
        const struct keshgurvat_link *x = &a->link[i], *y = &b->link[i];
        if (x->heard != y->heard || x->index != y->index || x->begun != y->begun || x->len != y->len) return false;
    }
    return true;
}

/* ---- the layout before E9 of 02: every call is tried in it too, and has to answer the same. A run keeps it from its first call on, with a
   store that has the unsent bytes at the front of its parts and otherwise another content; any other call gets it afresh, unless a start is
   over 4,095, which has no counterpart there. */
static struct {
    bool running;
    struct keshgurvat_sender state;
    uint8_t store[MOST], out[MOST];
} front;
static size_t unsent_of(const struct keshgurvat_queue *q) { return model_unsent(q) > 4096 ? 4096 : model_unsent(q); }

static void front_take(const struct keshgurvat_sender *state, bool running) {
    uint8_t line[4096];
    front.running = running, front.state = *state;
    any_bytes(front.store, store.length);
    for (size_t id = 0; id < 3 && store.length == 12288; id++)
        model_ring(state, store.model, id, line), memcpy(front.store + 4096 * id, line, unsent_of(&state->q[id]));
}
static bool front_taken(const struct keshgurvat_sender *state) {
    if (astray(state)) return false;
    if (!front.running) front_take(state, false);
    return true;
}
static bool same_unsent(const struct keshgurvat_sender *state) {
    uint8_t line[4096];
    if (astray(state)) return false;
    for (size_t id = 0; id < 3 && store.length == 12288; id++) {
        model_ring(state, store.ours, id, line);
        if (memcmp(front.store + 4096 * id, line, unsent_of(&state->q[id]))) return false;
    }
    return true;
}
static void load_front(const struct keshgurvat_loaded *got, const struct keshgurvat_settings *s, size_t room, size_t id, size_t n,
                       unsigned long t) {
    uint32_t number = model_load_front(&front.state, s, front.store, room, id, input.model, n);
    check(got->number == number && same_but_start(&got->next, &front.state, false), "load in the old layout", t);
    check(same_unsent(&got->next), "unsent bytes after a load in the old layout", t);
}
static void frame_front(const struct keshgurvat_framed *got, const struct keshgurvat_settings *s, size_t room, size_t size, unsigned long t) {
    struct model_counts c;
    uint32_t number = model_frame_front(&front.state, s, front.store, room, front.out, size, &c);
    check(got->number == number && same_but_start(&got->next, &front.state, false)
              && memcmp(front.out, output.ours, size) == 0, "frame in the old layout", t);
    check(got->packets.a == c.packets[0] && got->packets.b == c.packets[1] && got->packets.c == c.packets[2]
              && got->spares == c.spares && got->filler == c.filler, "frame's counts in the old layout", t);
    check(same_unsent(&got->next), "unsent bytes after a frame in the old layout", t);
}

/* how the ring was met: by an accepted load, whose queue was `before`, and by the packets of an accepted frame */
static void saw_load(const struct keshgurvat_sender *before, size_t id, size_t n) {
    size_t start = before->start[id], unsent = model_unsent(&before->q[id]), at = (start + unsent) % 4096;
    if (start == 0) return;
    turned[UNIT_WRAPS] += at + n > 4096, turned[UNIT_TO_END] += at + n == 4096, turned[UNIT_AT_FRONT] += at < start;
    turned[FULL] += unsent + n == 4096;
}
static void saw_frame(const struct keshgurvat_sender *before, const struct keshgurvat_sender *after, const struct keshgurvat_settings *s) {
    size_t at[3] = {before->start[0], before->start[1], before->start[2]};
    for (const uint8_t *k = output.model; k < output.model + s->n * (s->p + 3); k += s->p + 3) {
        size_t id = k[0] >> 4 & 3, useful = k[0] & 8 ? k[1] : s->p;
        if (id == 3) break;
        turned[useful < s->p ? PADDED_WRAPS : WRAPS] += at[id] + useful > 4096, turned[TO_END] += at[id] + useful == 4096;
        at[id] = (at[id] + useful) % 4096;
    }
    for (int id = 0; id < 3; id++) turned[EMPTIED] += before->q[id].count && after->q[id].count == 0 && after->start[id] != 0;
}

/* ---- the calls, each against the model; the states come back for the next call */
static void disperse(size_t n, size_t room, unsigned long t) {
    lend(&input, NULL, n), lend(&output, NULL, room);
    uint32_t want = model_disperse(input.model, n, output.model, room);
    uint32_t got = keshgurvat_disperse(input.ours, n, output.ours, room);
    check(got == want && settled(&input) && settled(&output), "disperse", t);
    saw(DISPERSE, got);
}

static void packet_check(size_t p, const uint8_t *packet, size_t n, unsigned long t) {
    lend(&input, packet, n);
    uint32_t want = model_check(p, input.model, n), got = keshgurvat_packet_check(p, input.ours, n);
    check(got == want && settled(&input), "packet check", t);
    saw(CHECK, got);
}

/* the answer too stands between guards: a struct that is larger on the other side would write over them */
static bool intact(const uint64_t edge[2]) { return edge[0] == 0x0123456789abcdefu && edge[1] == 0x0123456789abcdefu; }
#define ANSWER(type) struct { uint64_t before[2]; struct type got; uint64_t behind[2]; } \
    a = {{0x0123456789abcdefu, 0x0123456789abcdefu}, {0}, {0x0123456789abcdefu, 0x0123456789abcdefu}}

static uint32_t load_bytes(struct keshgurvat_sender *state, struct keshgurvat_settings s, size_t room, size_t id, const uint8_t *unit, size_t n,
                           unsigned long t) {
    struct keshgurvat_sender want = *state;
    bool both = front_taken(state);
    lend(&input, unit, n);
    ANSWER(keshgurvat_loaded);
    uint32_t number = model_load(&want, &s, store.model, room, id, input.model, n);
    a.got = keshgurvat_load(*state, s, store.ours, room, id, input.ours, n);
    check(a.got.number == number && same_sender(&a.got.next, &want, number != 0) && settled(&input) && settled(&store)
              && intact(a.before) && intact(a.behind), "load", t);
    if (both) load_front(&a.got, &s, room, id, n, t);
    if (number == 0) saw_load(state, id, n);
    saw(LOAD, a.got.number);
    *state = a.got.next;
    return a.got.number;
}
static uint32_t load(struct keshgurvat_sender *state, struct keshgurvat_settings s, size_t room, size_t id, size_t n, unsigned long t) {
    return load_bytes(state, s, room, id, NULL, n, t);
}

/* the model has the store as const, so a byte of it that the library changed shows in settled */
static struct keshgurvat_framed frame(struct keshgurvat_sender *state, struct keshgurvat_settings s, size_t room, size_t size,
                                      unsigned long t) {
    struct keshgurvat_sender want = *state;
    struct model_counts c;
    bool both = front_taken(state);
    lend(&output, NULL, size);
    memcpy(front.out, output.model, size);
    ANSWER(keshgurvat_framed);
    uint32_t number = model_frame(&want, &s, store.model, room, output.model, size, &c);
    a.got = keshgurvat_frame(*state, s, store.ours, room, output.ours, size);
    check(a.got.number == number && same_sender(&a.got.next, &want, number != 0) && settled(&output) && settled(&store)
              && intact(a.before) && intact(a.behind), "frame", t);
    check(a.got.packets.a == c.packets[0] && a.got.packets.b == c.packets[1] && a.got.packets.c == c.packets[2]
              && a.got.spares == c.spares && a.got.filler == c.filler, "frame's counts", t);
    if (both) frame_front(&a.got, &s, room, size, t);
    if (number == 0) saw_frame(state, &want, &s);
    saw(FRAME, a.got.number);
    *state = a.got.next;
    return a.got;
}

static struct keshgurvat_received receive(struct keshgurvat_receiver *state, size_t p, size_t room, const uint8_t *packet, size_t n,
                                          unsigned long t) {
    struct keshgurvat_receiver want = *state;
    struct model_unit unit;
    lend(&input, packet, n);
    ANSWER(keshgurvat_received);
    uint32_t number = model_receive(&want, p, buffer.model, room, input.model, n, &unit);
    a.got = keshgurvat_receive(*state, p, buffer.ours, room, input.ours, n);
    check(a.got.number == number && a.got.delivered == unit.delivered && a.got.id == unit.id && a.got.length == unit.length
              && same_receiver(&a.got.next, &want) && settled(&input) && settled(&buffer)
              && intact(a.before) && intact(a.behind), "receive", t);
    check(a.got.dropped == unit.dropped, "receive's dropped bytes", t);
    saw(RECEIVE, a.got.number);
    saw_dropped(state->link, input.model, unit.dropped);
    *state = a.got.next;
    return a.got;
}

/* ---- inputs */
static const size_t odd_p[] = {0, 256, 257, 259, 65536, (size_t)1 << 32, SIZE_MAX - 2, SIZE_MAX};
static size_t some_p(void) {
    static const size_t edge[] = {1, 2, 3, 254, 255};
    return one_in(3) ? ONE_OF(edge) : 1 + below(255);
}

static struct keshgurvat_settings some_settings(size_t p) { /* within the limits, and on them */
    size_t most = 8190 / (p + 3), n = one_in(4) ? most : 1 + below(one_in(2) && most > 12 ? 12 : most);
    size_t m[3], s[3], free = n;
    for (int i = 0; i < 3; i++) {
        m[i] = one_in(4) ? n : 1 + below(n);
        s[i] = below((m[i] < free ? m[i] : free) + 1);
        free -= s[i];
    }
    return (struct keshgurvat_settings){p, n, {s[0], s[1], s[2]}, {m[0], m[1], m[2]}};
}
static struct keshgurvat_settings run_settings(size_t p, bool large) {
    struct keshgurvat_settings s = some_settings(p);
    while (s.n > 40 && !large) s = some_settings(p);
    return s;
}
static void spoil_settings(struct keshgurvat_settings *s) {
    static const size_t odd[] = {0, 1, 2047, 2048, SIZE_MAX, SIZE_MAX - 1, SIZE_MAX / 2 + 1};
    size_t *field[] = {&s->n, &s->share.a, &s->share.b, &s->share.c, &s->ceiling.a, &s->ceiling.b, &s->ceiling.c};
    size_t i = below(8);
    if (i == 7) s->p = ONE_OF(odd_p);
    else if (one_in(2)) *field[i] = ONE_OF(odd);
    else *field[i] += one_in(2) ? 1 : SIZE_MAX; /* one more, or one less */
}

static void count_up(struct keshgurvat_sender *t, size_t p) { /* the right counts */
    for (int i = 0; i < 3; i++) t->waiting[i] = (uint16_t)model_waiting(&t->q[i], p);
}
static bool counts_right(const struct keshgurvat_sender *t, size_t p) {
    for (int i = 0; i < 3; i++)
        if (t->waiting[i] != model_waiting(&t->q[i], p)) return false;
    return true;
}
static size_t some_start(void) {
    static const size_t edge[] = {0, 1, 2048, 4090, 4095};
    return one_in(3) ? ONE_OF(edge) : below(4096);
}
static struct keshgurvat_sender some_sender(size_t p) { /* any that is not 17, with rubbish in the places that say nothing */
    struct keshgurvat_sender t;
    any_bytes((uint8_t *)&t, sizeof t);
    for (int i = 0; i < 3; i++) {
        struct keshgurvat_queue *q = &t.q[i];
        size_t free = 4096, most = one_in(3) ? 4096 : 1 + below(900);
        q->sent = 0, q->count = 0, t.start[i] = (uint16_t)some_start();
        for (size_t want = below(9); q->count < want && free; q->count++) {
            q->left[q->count] = (uint16_t)(1 + below(most < free ? most : free));
            free -= q->left[q->count];
        }
        if (q->count && free && one_in(8)) q->left[q->count - 1] = (uint16_t)(q->left[q->count - 1] + free); /* full to the byte */
        if (q->count && one_in(2)) q->sent = p * below((4096u - q->left[0]) / p + 1);
    }
    t.turn = below(3);
    for (int i = 0; i < 4; i++) t.index[i] = (uint8_t)below(8);
    count_up(&t, p);
    return t;
}
static void spoil_sender(struct keshgurvat_sender *t, size_t p) { /* with right counts, so that they are not why it is refused */
    struct keshgurvat_queue *q = &t->q[below(3)];
    size_t at = q->count ? below(q->count) : 0;
    switch (below(11)) {
    case 0: q->count = one_in(2) ? 9 : SIZE_MAX; break;
    case 1: q->left[at] = 0; break;
    case 2: q->left[at] = one_in(2) ? 4097 : 65535; break;
    case 3: q->left[at] = (uint16_t)(q->left[at] + 4000); break;
    case 4: q->sent += 1 + below(p); break;
    case 5: q->sent = p * (4096 / p + below(3)); break;
    case 6: q->sent = one_in(2) ? SIZE_MAX : SIZE_MAX / p * p; break;
    case 7: t->turn = one_in(2) ? 3 : SIZE_MAX; break;
    case 8: t->index[below(4)] = one_in(2) ? 8 : 255; break;
    case 9: t->start[below(3)] = one_in(2) ? 4096 : 65535; break;
    default: q->count = 0, q->sent = p;
    }
    count_up(t, p);
}
static void spoil_counts(struct keshgurvat_sender *t, size_t p, size_t id, enum kind kind) { /* some of these are right by chance */
    const struct keshgurvat_queue *q = &t->q[id];
    uint16_t *count = &t->waiting[id], *other = &t->waiting[(id + 1 + below(2)) % 3], kept = *count;
    size_t bytes = 0;
    for (size_t i = 0; i < q->count; i++) bytes += q->left[i];
    switch (kind) {
    case ONE_MORE: *count = (uint16_t)(kept + 1); break;
    case ONE_LESS: *count = (uint16_t)(kept - 1); break;
    case CEILING: *count = (uint16_t)((bytes + p - 1) / p); break;
    case UNITS: *count = (uint16_t)q->count; break;
    case BYTES: *count = (uint16_t)bytes; break;
    case OTHER_P: *count = (uint16_t)model_waiting(q, some_p()); break;
    case EXCHANGED: *count = *other, *other = kept; break;
    case LARGEST: *count = 65535; break;
    default: *count = (uint16_t)draw();
    }
}

/* a packet that is whole, or not, each flag set one time in `rate`; its length is given back */
static size_t some_packet(uint8_t *to, size_t p, size_t id, size_t index, size_t rate) {
    uint8_t useful[255];
    size_t n = one_in(3) ? p : below(p + 1);
    for (size_t i = 0; i < n; i++) useful[i] = (uint8_t)draw();
    model_packet(to, p, one_in(rate), one_in(rate), id, index, useful, one_in(10) ? 0 : n);
    switch (below(16)) {
    case 0: to[below(p + 3)] ^= (uint8_t)(1 << below(8)); break;                                           /* a bit turned */
    case 1: to[0] |= 8, to[1] = (uint8_t)(p - 1 + below(2)), model_seal(to, p); break;                      /* a count of p - 1 or p */
    case 2: to[0] |= 8, to[1] = 255, model_seal(to, p); break;
    case 3: to[p] = (uint8_t)draw(), model_seal(to, p); break;                                              /* padding that is not 0 */
    case 4: to[below(p + 1)] = (uint8_t)draw(), model_seal(to, p); break;
    case 5: return one_in(2) ? p + 2 : one_in(2) ? p + 4 : below(260);
    case 6: case 7: model_packet(to, p, true, true, id, index, NULL, 0); break;                             /* null */
    }
    return p + 3;
}

/* ---- the tests */
static void test_disperse(void) {
    static const size_t edge[] = {0, 1, 510, 511, 512, 1022, 65527, 65528, 65529, 65530};
    for (unsigned long t = 0; t < 1000; t++) {
        size_t n = one_in(8) ? below(2000) : below(80);
        disperse(n, one_in(3) ? n : n + below(40), t);
        if (n) disperse(n, n - 1 - (one_in(2) ? below(n) : 0), t);
    }
    for (size_t i = 0; i < sizeof edge / sizeof edge[0]; i++) {
        disperse(edge[i], edge[i], 2000 + i), disperse(edge[i], edge[i] + 1, 2000 + i);
        if (edge[i]) disperse(edge[i], edge[i] - 1, 2000 + i);
    }
    uint8_t zero[2] = {0, 0}, once[2], twice[2]; /* 01, example 6 */
    keshgurvat_disperse(zero, 2, once, 2), keshgurvat_disperse(once, 2, twice, 2);
    check(once[0] == 0x07 && once[1] == 0xbe && twice[0] == 0 && twice[1] == 0, "07 BE, and back", 0);
}

static void test_packet_check(void) {
    static uint8_t packet[600];
    for (unsigned long t = 0; t < 4000; t++) {
        size_t p = some_p(), n = some_packet(packet, p, below(4), below(8), 3);
        packet_check(one_in(20) ? ONE_OF(odd_p) : one_in(30) ? some_p() : p, packet, n, t);
    }
}

static void test_settings(void) {
    for (unsigned long t = 0; t < 4000; t++) {
        struct keshgurvat_settings s = some_settings(some_p());
        for (size_t k = below(4); k; k--) spoil_settings(&s);
        uint32_t got = keshgurvat_settings_check(s);
        check(got == model_settings(&s), "settings check", t);
        saw(SETTINGS, got);
    }
}

static size_t some_unit(void) {
    static const size_t edge[] = {0, 1, 4095, 4096, 4097, 65528, 65529};
    return one_in(6) ? ONE_OF(edge) : 1 + below(700);
}
static size_t some_size(const struct keshgurvat_settings *s) { /* of a frame's output: enough, or one byte less */
    return model_settings(s) ? below(9000) : s->n * (s->p + 3) + below(3) - one_in(8);
}
static void test_sender_calls(void) { /* any state with right counts, one call */
    static const size_t rooms[] = {0, 12287, 12289, 16384};
    for (unsigned long t = 0; t < 3000; t++) {
        size_t p = some_p(), room = one_in(20) ? ONE_OF(rooms) : 12288;
        struct keshgurvat_settings s = some_settings(p);
        struct keshgurvat_sender state = some_sender(p);
        if (one_in(12)) spoil_settings(&s);
        if (one_in(4)) spoil_sender(&state, p);
        lend(&store, NULL, room);
        if (t % 2) load(&state, s, room, one_in(12) ? 3 + below(9) : below(3), some_unit(), t);
        else frame(&state, s, room, some_size(&s), t);
    }
}

/* Any state but for its counts, one call. Where one of them is not the sum: 13 if the settings are refused, else 17, whatever else is wrong;
   and the wrong counts come back as they came (load and frame look). */
static void test_counts(void) {
    for (unsigned long t = 0; t < 6000; t++) {
        size_t p = some_p(), id = below(3), to = one_in(12) ? 3 + below(9) : below(3);
        enum kind kind = (enum kind)(t / 2 % KINDS);
        enum beside beside = one_in(3) ? (enum beside)(BAD_SETTINGS + below(3)) : NOTHING;
        struct keshgurvat_settings s = some_settings(p);
        struct keshgurvat_sender state = some_sender(p);
        spoil_counts(&state, p, id, kind);
        bool right = counts_right(&state, p);
        if (beside == NOTHING && t % 2 && to < 3 && state.waiting[to] == model_waiting(&state.q[to], p)) beside = NOT_LOADED;
        if (beside == BAD_SETTINGS) spoil_settings(&s);
        if (beside == NINE_UNITS) state.q[below(3)].count = 9;
        size_t room = beside == SHORT_STORE ? 12287 : 12288;
        uint32_t refused = model_settings(&s) ? 13 : 17;
        lend(&store, NULL, room);
        uint32_t number = t % 2 ? load(&state, s, room, to, some_unit(), t) : frame(&state, s, room, some_size(&s), t).number;
        if (right) continue;
        check(number == refused, "a count that is not the sum", t);
        kinds[t % 2 == 0][kind] += refused == 17;
        besides[beside] += refused == (beside == BAD_SETTINGS ? 13 : 17);
    }
}

/* E1 of 02: counts worked out by hand. */
static void test_waiting(void) {
    const struct keshgurvat_settings s = {10, 2, {1, 0, 0}, {1, 2, 2}};
    for (size_t i = 0; i < 3 * 4 * 8; i++) { /* units of 25 bytes (10 sent), 10 and 1: 2 + 1 + 1 packets wait; 26 bytes would be 3 */
        size_t id = i % 3, to = i / 3 % 4, stored = i / 12;
        struct keshgurvat_sender state = keshgurvat_sender_fresh();
        lend(&store, NULL, 12288);
        state.q[id] = (struct keshgurvat_queue){{15, 10, 1}, 3, 10}, state.waiting[id] = (uint16_t)stored;
        uint32_t number = to < 3 ? load(&state, s, 12288, to, 1, i) : frame(&state, s, 12288, 26, i).number;
        check(number == (stored == 4 ? 0 : 17), "25 with 10 sent, 10 and 1", i);
    }
    for (size_t i = 0; i < 12; i++) { /* one unit of 25 bytes, none sent, 3 packets at p 10, 9 and 12, not at p 5, 8 and 13 */
        static const size_t another[] = {10, 9, 12, 5, 8, 13};
        struct keshgurvat_settings to = {another[i / 2], 2, {1, 0, 0}, {1, 2, 2}};
        struct keshgurvat_sender state = keshgurvat_sender_fresh();
        lend(&store, NULL, 12288);
        load(&state, s, 12288, 0, 25, i);
        check(state.waiting[0] == 3, "25 at p 10", i);
        uint32_t number = i % 2 ? load(&state, to, 12288, 1, 1, i) : frame(&state, to, 12288, 2 * (to.p + 3), i).number;
        check(number == (i < 6 ? 0 : 17), "25 at another p", i);
    }
    static const struct { size_t id, length; uint16_t waiting[3]; } run[] = { /* a length of 0: a frame */
        {0, 25, {3, 0, 0}}, {0, 10, {4, 0, 0}}, {0, 1, {5, 0, 0}}, {2, 11, {5, 0, 2}},
        {0, 0, {4, 0, 1}}, {0, 0, {3, 0, 0}}, {0, 0, {2, 0, 0}}, {0, 0, {1, 0, 0}}, {0, 0, {0, 0, 0}}, {0, 0, {0, 0, 0}}};
    struct keshgurvat_sender state = keshgurvat_sender_fresh();
    lend(&store, NULL, 12288);
    for (size_t i = 0; i < sizeof run / sizeof run[0]; i++) {
        uint32_t number = run[i].length ? load(&state, s, 12288, run[i].id, run[i].length, i) : frame(&state, s, 12288, 26, i).number;
        check(number == 0 && memcmp(state.waiting, run[i].waiting, sizeof state.waiting) == 0, "the counts of a run", i);
    }
}

/* A run from a fresh sender in which now and then a call comes with another p. It is refused where a count is not the sum for that p, or 01
   refuses the bytes sent; then the run goes on with the p before. With three empty queues any p is taken. */
static void test_changes(unsigned long t) {
    size_t p = some_p();
    struct keshgurvat_sender state = keshgurvat_sender_fresh();
    lend(&store, NULL, 12288), front_take(&state, true);
    for (int step = 0; step < 60; step++) {
        size_t to = one_in(2) ? p : one_in(2) ? some_p() : p > 1 && one_in(2) ? p - 1 : p < 255 ? p + 1 : p;
        struct keshgurvat_settings s = some_settings(to);
        while (s.n > 12) s = some_settings(to); /* few packets a frame, so that units stay begun */
        bool empty = true, sent = true, right = counts_right(&state, to);
        for (int i = 0; i < 3; i++) empty &= state.q[i].count == 0, sent &= state.q[i].sent % to == 0;
        uint32_t number = one_in(2) ? load(&state, s, 12288, below(3), 1 + below(4 * p), t)
                                    : frame(&state, s, 12288, s.n * (to + 3), t).number;
        check((number == 17) == !(right && sent), "a call with another p", t);
        check(counts_right(&state, number == 17 ? p : to), "the counts after it", t);
        if (to != p) changes[empty ? EMPTY : !right ? UNEQUAL : sent ? EQUAL : EQUAL_SENT]++;
        if (number != 17) p = to;
    }
    front.running = false;
}

/* E9 of 02. A start over 4,095 in any queue, one call: 13 if the settings are refused, else 17, whatever else is wrong. */
static void test_starts(void) {
    for (unsigned long t = 0; t < 4000; t++) {
        size_t p = some_p(), id = below(3), to = below(3);
        enum stray stray = (enum stray)(t / 2 % STRAYS);
        enum with with = (enum with)below(WITHS);
        struct keshgurvat_settings s = some_settings(p);
        struct keshgurvat_sender state = some_sender(p);
        state.start[id] = (uint16_t)(stray == FIRST_OVER ? 4096 : stray == LAST_OVER ? 65535 : 4096 + below(61440));
        if (with == NO_UNITS) state.q[id].count = state.q[id].sent = state.waiting[id] = 0;
        if (with == OTHER_QUEUE) to = (id + 1 + below(2)) % 3;
        if (with == WITH_SETTINGS) spoil_settings(&s);
        if (with == WITH_COUNT) state.waiting[below(3)]++;
        if (with == WITH_UNITS) state.q[below(3)].count = 9;
        size_t room = with == WITH_STORE ? 12287 : 12288;
        uint32_t refused = model_settings(&s) ? 13 : 17;
        lend(&store, NULL, room);
        uint32_t number = t % 2 ? load(&state, s, room, to, some_unit(), t) : frame(&state, s, room, some_size(&s), t).number;
        check(number == refused, "a start over 4,095", t);
        strays[t % 2 == 0][stray] += refused == 17;
        withs[with] += refused == (with == WITH_SETTINGS ? 13 : 17);
    }
}

/* Each of these starts in each queue, which has two units or none: a load of all that is free in a queue, or a frame. */
static void test_start_edges(void) {
    static const uint16_t starts[] = {0, 1, 2048, 4090, 4095, 4096, 65535};
    const struct keshgurvat_settings s = {10, 5, {1, 1, 1}, {5, 5, 5}};
    for (size_t i = 0; i < 7 * 3 * 4 * 2; i++) {
        size_t id = i % 3, to = i / 3 % 4, units = i / 12 % 2;
        uint16_t start = starts[i / 24];
        struct keshgurvat_sender state = keshgurvat_sender_fresh();
        if (units) state.q[id] = (struct keshgurvat_queue){{15, 305}, 2, 10}, state.waiting[id] = 2 + 31;
        state.start[id] = start;
        lend(&store, NULL, 12288);
        uint32_t number = to < 3 ? load(&state, s, 12288, to, units && to == id ? 4096 - 320 : 4096, i) : frame(&state, s, 12288, 65, i).number;
        size_t sent = to == 3 && units ? 15 + 30 : 0; /* five packets, of which the second has five bytes */
        check(number == (start > 4095 ? 17 : 0), "a start at the limits", i);
        check(state.start[id] == (start > 4095 ? start : (start + sent) % 4096), "the start after it", i);
    }
}

/* The ring worked out by hand. First p 4, three packets, and a unit of ten bytes that begins six bytes before the end. */
static void test_ring_bytes(void) {
    static const uint8_t unit[10] = {1, 2, 3, 4, 5, 6, 7, 8, 9, 10}, want[21] = {0x80, 1, 2, 3, 4, 0xc1, 0x20, 1, 5, 6, 7, 8, 0x52, 0xd8,
                                                                              0x4a, 2, 9, 10, 0, 0x25, 7};
    const struct keshgurvat_settings s = {4, 3, {3, 0, 0}, {3, 3, 3}};
    struct keshgurvat_sender state = keshgurvat_sender_fresh();
    state.start[0] = 4090;
    lend(&store, NULL, 12288);
    check(load_bytes(&state, s, 12288, 0, unit, 10, 0) == 0 && state.start[0] == 4090, "ten bytes loaded at 4,090", 0);
    check(memcmp(store.ours + 4090, unit, 6) == 0 && memcmp(store.ours, unit + 6, 4) == 0, "ten bytes at 4,090 to 3", 0);
    check(frame(&state, s, 12288, 21, 0).number == 0 && memcmp(output.ours, want, 21) == 0, "ten bytes sent from 4,090", 0);
    check(state.start[0] == 4 && state.q[0].count == 0, "empty, with a start of 4", 0);
    check(memcmp(store.ours + 4090, unit, 6) == 0 && memcmp(store.ours, unit + 6, 4) == 0, "ten bytes as they were", 0);

    static const struct { size_t length, start, unsent; } run[] = {{4096, 3060, 1036}, {3000, 1785, 1215}, {1000, 4000, 0}, {97, 1, 0}};
    for (size_t i = 0; i < 3 * 4; i++) { /* p 255, twelve packets, a frame after each load */
        size_t id = i / 4, k = i % 4;
        const struct keshgurvat_settings one = {255, 12, {id == 0 ? 12 : 0, id == 1 ? 12 : 0, id == 2 ? 12 : 0}, {12, 12, 12}};
        if (k == 0) state = keshgurvat_sender_fresh(), lend(&store, NULL, 12288), front_take(&state, true);
        check(load(&state, one, 12288, id, run[k].length, i) == 0, "a load of the run by hand", i);
        check(frame(&state, one, 12288, 3096, i).number == 0 && state.start[id] == run[k].start
                  && model_unsent(&state.q[id]) == run[k].unsent, "a frame of the run by hand", i);
    }
    front.running = false;
}

/* A packet whose useful bytes wrap at each of them: a unit that begins fewer than p bytes before the end. Its bytes come out one behind the
   other, and the ring then begins behind them. */
static void across(size_t p, size_t start, size_t n, size_t id, unsigned long t) {
    const struct keshgurvat_settings s = {p, 2, {0, 0, 0}, {2, 2, 2}};
    size_t first = n < p ? n : p;
    struct keshgurvat_sender state = keshgurvat_sender_fresh();
    state.start[id] = (uint16_t)start;
    lend(&store, NULL, 12288);
    check(load(&state, s, 12288, id, n, t) == 0, "a unit at the end", t);
    check(frame(&state, s, 12288, 2 * (p + 3), t).filler == (n <= p), "its packets", t);
    check(memcmp(output.ours + 1 + (n < p), input.model, first) == 0, "its first packet", t);
    check(n <= p || memcmp(output.ours + p + 5, input.model + p, n - p) == 0, "its second packet", t);
    check(state.start[id] == (start + n) % 4096 && state.q[id].count == 0, "the start behind it", t);
}
static void test_across(void) {
    static const size_t all[] = {4, 127, 255};
    for (size_t i = 0; i < 3; i++)
        for (size_t p = all[i], start = 4097 - p; start < 4096; start++) {
            unsigned long t = 4096 * i + start;
            for (size_t id = 0; id < 3; id++) across(p, start, p, id, t);
            across(p, start, p - 1 - start % 2, t % 3, t);            /* a padded packet */
            across(p, start, p + 1 + start % (p - 1), t / 3 % 3, t);  /* a whole one and a padded one */
            across(p, start, 4096 - start, t / 9 % 3, t);             /* one that just does not wrap */
        }
}

/* A full ring that begins anywhere: no byte more goes in, until some are sent, and then just as many; all of it comes out, and the queue that
   ran empty keeps its start. */
static void test_full(void) {
    static const uint16_t starts[] = {1, 255, 2048, 4090, 4095};
    static uint8_t unit[4096], back[4096];
    const struct keshgurvat_settings s = {255, 1, {0, 0, 0}, {1, 1, 1}}, more = {255, 17, {0, 0, 0}, {17, 17, 17}};
    for (size_t i = 0; i < 5 * 3; i++) {
        size_t id = i % 3, start = starts[i / 3];
        struct keshgurvat_sender state = keshgurvat_sender_fresh();
        state.start[id] = (uint16_t)start;
        lend(&store, NULL, 12288), front_take(&state, true), any_bytes(unit, 4096);
        check(load_bytes(&state, s, 12288, id, unit, 4096, i) == 0, "a unit of 4,096", i);
        check(store.ours[4096 * id + start] == unit[0] && store.ours[4096 * id + start - 1] == unit[4095]
                  && store.ours[4096 * id] == unit[4096 - start], "a ring all round", i);
        check(load(&state, s, 12288, id, 1, i) == 15, "a byte more", i);
        check(frame(&state, s, 12288, 258, i).number == 0 && state.start[id] == (start + 255) % 4096, "a packet out of a full ring", i);
        memcpy(back, output.ours + 1, 255);
        check(load(&state, s, 12288, id, 256, i) == 15 && load(&state, s, 12288, id, 255, i) == 0, "just as many", i);
        check(load(&state, s, 12288, id, 1, i) == 15, "full again", i);
        check(frame(&state, more, 12288, 17 * 258, i).filler == 0, "the whole ring", i);
        for (size_t k = 0; k < 16; k++) memcpy(back + 255 * (k + 1), output.ours + 258 * k + 1 + (k == 15), k == 15 ? 16 : 255); /* 15 is padded */
        check(memcmp(back, unit, 4096) == 0, "a unit of 4,096 comes out", i);
        check(state.q[id].count == 0 && state.start[id] == (start + 255) % 4096, "4,351 bytes on", i);
        check(frame(&state, more, 12288, 17 * 258, i).filler == 17 && state.start[id] == (start + 255) % 4096, "empty, its start kept", i);
        check(load(&state, s, 12288, id, 1, i) == 0 && store.ours[4096 * id + (start + 255) % 4096] == input.model[0], "and used", i);
    }
    front.running = false;
}

/* a unit of any length, or one that reaches the end of its queue's part, or that fills the queue */
static uint32_t load_ring(struct keshgurvat_sender *state, struct keshgurvat_settings s, unsigned long t) {
    size_t id = below(3), unsent = unsent_of(&state->q[id]), free = 4096 - unsent, to_end = 4096 - (state->start[id] + unsent) % 4096;
    size_t n = one_in(5) ? free : one_in(2) && to_end <= free ? to_end : one_in(3) ? below(free + 1) : below(700);
    return load(state, s, 12288, id, n ? n : 1, t);
}

/* Sixty loads and frames from a fresh sender, in both layouts, whose stores have another content at first; where all queues are empty, or by
   chance, p changes. */
static void test_ring_run(unsigned long t) {
    size_t p = some_p();
    struct keshgurvat_sender state = keshgurvat_sender_fresh();
    lend(&store, NULL, 12288), front_take(&state, true);
    for (int step = 0; step < 60; step++) {
        bool empty = state.q[0].count + state.q[1].count + state.q[2].count == 0;
        size_t to = (empty && one_in(2)) || one_in(20) ? some_p() : p;
        struct keshgurvat_settings s = run_settings(to, false);
        uint32_t number = one_in(2) ? load_ring(&state, s, t) : frame(&state, s, 12288, s.n * (to + 3), t).number;
        check(!astray(&state), "no start over 4,095 in a run", t);
        if (number != 17) p = to;
    }
    front.running = false;
}

/* A frame of a store that cannot be written to: the bytes of a constant. A library that writes there ends the program. */
#define BYTES_4(i) (uint8_t)(57 * (i)), (uint8_t)(57 * ((i) + 1)), (uint8_t)(57 * ((i) + 2)), (uint8_t)(57 * ((i) + 3))
#define BYTES_16(i) BYTES_4(i), BYTES_4((i) + 4), BYTES_4((i) + 8), BYTES_4((i) + 12)
#define BYTES_64(i) BYTES_16(i), BYTES_16((i) + 16), BYTES_16((i) + 32), BYTES_16((i) + 48)
#define BYTES_256(i) BYTES_64(i), BYTES_64((i) + 64), BYTES_64((i) + 128), BYTES_64((i) + 192)
#define BYTES_1024(i) BYTES_256(i), BYTES_256((i) + 256), BYTES_256((i) + 512), BYTES_256((i) + 768)
#define BYTES_4096(i) BYTES_1024(i), BYTES_1024((i) + 1024), BYTES_1024((i) + 2048), BYTES_1024((i) + 3072)
static const uint8_t fixed[12288] = {BYTES_4096(0), BYTES_4096(4096 + 1), BYTES_4096(8192 + 2)};
static void test_fixed_store(void) {
    for (unsigned long t = 0; t < 300; t++) {
        size_t p = some_p();
        struct keshgurvat_settings s = some_settings(p);
        struct keshgurvat_sender state = some_sender(p), want = state;
        struct model_counts c;
        if (one_in(8)) spoil_sender(&state, p), want = state;
        lend(&output, NULL, s.n * (p + 3));
        uint32_t number = model_frame(&want, &s, fixed, 12288, output.model, output.length, &c);
        struct keshgurvat_framed got = keshgurvat_frame(state, s, fixed, 12288, output.ours, output.length);
        check(got.number == number && same_sender(&got.next, &want, number != 0) && settled(&output), "a store that is constant", t);
    }
}

static void test_receiver_calls(void) { /* any record, one packet */
    static const size_t rooms[] = {0, 16383, 16385, 4096};
    static uint8_t packet[600];
    for (unsigned long t = 0; t < 8000; t++) {
        size_t p = some_p(), id = below(4), room = one_in(25) ? ONE_OF(rooms) : 16384;
        struct keshgurvat_receiver r;
        for (int i = 0; i < 4; i++) {
            size_t len = one_in(3) ? 4096 - below(p + 2) : below(4097);
            struct keshgurvat_link k = {!one_in(4), (uint8_t)below(8), !one_in(3), (uint16_t)len};
            if (one_in(60)) k.index = one_in(2) ? 8 : 255;
            if (one_in(60)) k.len = one_in(2) ? 4097 : 65535;
            r.link[i] = k;
        }
        size_t n = some_packet(packet, p, id, one_in(2) ? below(8) : r.link[id].index % 8u, 3);
        lend(&buffer, NULL, room);
        receive(&r, one_in(30) ? ONE_OF(odd_p) : p, room, packet, n, t);
    }
}

/* Packets by chance to one receiver, few of them with a flag, so that units grow past their limit; indexes break now and then. */
static void test_receiver_run(unsigned long t) {
    static uint8_t packet[600];
    size_t p = 255 - below(one_in(2) ? 100 : 255);
    struct keshgurvat_receiver r = keshgurvat_receiver_fresh();
    lend(&buffer, NULL, 16384);
    for (int k = 0; k < 400; k++) {
        size_t id = below(4), n = some_packet(packet, p, id, one_in(60) ? below(8) : r.link[id].index, 30);
        receive(&r, p, 16384, packet, n, t);
    }
}

/* E5 of 02: what a packet drops of an open unit, worked out by hand. */
static void test_dropped(void) {
    /* p 4, id 0: four bytes are open, index 1 comes next; `whole` is the length of the unit that is delivered, `open` of the one open then */
    static const uint8_t begin[7] = {0x80, 1, 2, 3, 4, 0xc1, 0x20};
    static const struct { uint8_t packet[7]; size_t dropped, whole, open; } then[] = {
        {{0x4a, 1, 9, 0, 0, 0x51, 0x10}, 4, 0, 0}, /* index 2, last: a break, and the packet itself is skipped */
        {{0x82, 9, 10, 11, 12, 0xa1, 0x60}, 4, 0, 4}, /* index 2, first: counted once */
        {{0xc9, 0, 0, 0, 0, 0x75, 0x37}, 0, 0, 4}, /* null, index 1 */
        {{0xca, 0, 0, 0, 0, 0x9b, 0xe5}, 4, 0, 0}, /* null, index 2 */
        {{0xc9, 1, 7, 0, 0, 0x86, 0x13}, 4, 1, 0}, {{0xca, 1, 7, 0, 0, 0x68, 0xc1}, 4, 1, 0}, /* a whole unit, index 1 and 2 */
        {{0x49, 1, 7, 0, 0, 0xa4, 0xc3}, 0, 5, 0}}; /* last, index 1 */
    for (size_t i = 0; i < sizeof then / sizeof then[0]; i++) {
        struct keshgurvat_receiver r = keshgurvat_receiver_fresh();
        lend(&buffer, NULL, 16384);
        struct keshgurvat_received d = receive(&r, 4, 16384, begin, 7, i);
        check(d.number == 0 && d.dropped == 0 && r.link[0].len == 4, "a unit begun", i);
        d = receive(&r, 4, 16384, then[i].packet, 7, i);
        check(d.number == 0 && d.dropped == then[i].dropped && d.delivered == (then[i].whole > 0) && d.length == then[i].whole
                  && r.link[0].begun == (then[i].open > 0) && r.link[0].len == then[i].open, "dropped after four bytes", i);
    }
    /* p 255, id 1, index 5 comes next: the limits. Id 0 has 4,096 bytes open, which no packet of id 1 drops. */
    enum { F = 128, L = 64 };
    static const struct { int open, flags; size_t index, useful, dropped; } at[] = { /* open -1: none, and its length says nothing */
        {4090, 0, 5, 7, 4097}, {4090, 0, 5, 6, 0}, {4090, L, 5, 6, 0}, {3842, L, 5, 255, 4097}, {3841, L, 5, 255, 0}, /* fits, or not */
        {4096, L, 5, 255, 4351}, {4096, 0, 5, 1, 4097}, {4096, 0, 5, 0, 0}, {4096, L, 5, 0, 0},
        {4096, F, 5, 255, 4096}, {4096, F, 5, 0, 4096}, {1, F | L, 5, 255, 1}, {4096, F | L, 5, 0, 0}, /* first; the last of them is null */
        {4096, 0, 6, 255, 4096}, {4090, L, 4, 7, 4090}, {1, 0, 1, 0, 1}, {4096, F, 6, 255, 4096}, {4096, F | L, 6, 0, 4096}, /* a break */
        {-1, L, 5, 255, 0}, {-1, 0, 6, 255, 0}, {-1, F, 6, 255, 0}, {0, 0, 6, 255, 0}, {0, F, 5, 255, 0}}; /* no byte open */
    static uint8_t useful[255], packet[258];
    for (size_t i = 0; i < sizeof at / sizeof at[0]; i++) {
        struct keshgurvat_receiver r = {{{true, 3, true, 4096}, {true, 5, at[i].open >= 0, (uint16_t)(at[i].open < 0 ? 4096 : at[i].open)}}};
        lend(&buffer, NULL, 16384);
        model_packet(packet, 255, at[i].flags & F, at[i].flags & L, 1, at[i].index, useful, at[i].useful);
        struct keshgurvat_received d = receive(&r, 255, 16384, packet, 258, i);
        check(d.number == 0 && d.dropped == at[i].dropped && r.link[0].begun && r.link[0].len == 4096, "dropped at the limits", i);
        if (at[i].dropped <= 4096) continue; /* what follows of a unit that was too long is skipped: its bytes are not counted */
        model_packet(packet, 255, false, true, 1, 6, useful, 255);
        d = receive(&r, 255, 16384, packet, 258, i);
        check(d.number == 0 && !d.delivered && d.dropped == 0, "skipped behind an overlength", i);
    }
    for (size_t i = 0; i < 2; i++) { /* first contact takes any index: the unit stays open, unless it grows too long */
        struct keshgurvat_receiver r = {{{false, 5, true, 4096}}};
        lend(&buffer, NULL, 16384);
        model_packet(packet, 255, false, false, 0, 6, useful, i);
        check(receive(&r, 255, 16384, packet, 258, i).dropped == 4097 * i, "dropped at first contact", i);
    }
    for (size_t i = 0; i < 6; i++) { /* each refusal, of a packet that would drop 4,096 bytes by its index */
        static const uint32_t number[] = {13, 17, 1, 1, 16, 16};
        struct keshgurvat_receiver r = {{{true, 3, true, 4096}, {true, 5, true, 4096}, {true, i == 1 ? 8 : 7, false, 0}}};
        lend(&buffer, NULL, 16384);
        model_packet(packet, 255, true, false, 1, 6, useful, 9);
        if (i == 4) packet[257] ^= 1;
        if (i == 5) packet[1] = 255, model_seal(packet, 255);
        struct keshgurvat_received d = receive(&r, i == 0 ? 0 : 255, 16384 - (i == 2), packet, 258 - (i == 3), i);
        check(d.number == number[i] && d.dropped == 0 && r.link[1].len == 4096, "a refused packet drops nothing", i);
    }
}

/* Units of a fresh sender, p unchanged, every packet to a fresh receiver: they come back per id in order, byte for byte. No call meets 17,
   and no packet drops a byte. Where it is `lossy` some packets are lost, and only the model says what comes back. */
static struct { uint8_t bytes[4096]; size_t length; } sent_units[3][16]; /* the last 16 of each queue, by number */
static void test_run(unsigned long t, bool lossy, bool large) {
    size_t p = some_p(), given[3] = {0, 0, 0}, back[3] = {0, 0, 0};
    struct keshgurvat_sender state = keshgurvat_sender_fresh();
    struct keshgurvat_receiver r = keshgurvat_receiver_fresh();
    struct keshgurvat_settings s = run_settings(p, large);
    bool right = true, no_17 = true, whole = true, kept = true;
    lend(&store, NULL, 12288), lend(&buffer, NULL, 16384), front_take(&state, true);
    for (int step = 0; step < 50; step++) {
        for (size_t k = below(4); k; k--) {
            size_t id = one_in(20) ? 3 : below(3), n = one_in(5) ? below(4098) : 1 + below(4 * p);
            uint32_t number = load(&state, s, 12288, id, n, t);
            no_17 &= number != 17, kept &= counts_right(&state, p);
            if (number) continue;
            memcpy(sent_units[id][given[id] % 16].bytes, input.model, n);
            sent_units[id][given[id]++ % 16].length = n;
        }
        if (one_in(10)) s = run_settings(p, large);
        struct keshgurvat_framed f = frame(&state, s, 12288, s.n * (p + 3) + below(2), t);
        no_17 &= f.number == 0, kept &= counts_right(&state, p);
        for (size_t at = 0; at < s.n * (p + 3); at += p + 3) {
            if (lossy && one_in(6)) continue;
            struct keshgurvat_received d = receive(&r, p, 16384, output.model + at, p + 3, t);
            no_17 &= d.number == 0, whole &= lossy || d.dropped == 0;
            if (!d.delivered || lossy) continue;
            size_t k = back[d.id]++;
            right &= k < given[d.id] && sent_units[d.id][k % 16].length == d.length
                     && memcmp(sent_units[d.id][k % 16].bytes, buffer.ours + 4096 * d.id, d.length) == 0;
        }
    }
    front.running = false;
    for (int id = 0; id < 3 && !lossy; id++) right &= back[id] + state.q[id].count == given[id];
    check(right, "units come back", t), check(no_17, "a run meets no 17", t), check(whole, "a run in order drops nothing", t);
    check(kept, "a run keeps the counts", t);
}

static void test_fresh(void) {
    struct keshgurvat_sender none = keshgurvat_sender_fresh(), no_unit;
    struct keshgurvat_receiver silent = keshgurvat_receiver_fresh(), unheard;
    memset(&no_unit, 0, sizeof no_unit), memset(&unheard, 0, sizeof unheard);
    check(same_sender(&none, &no_unit, true), "fresh sender", 0), check(same_receiver(&silent, &unheard), "fresh receiver", 0);
}

static void test_marked(void) { /* 01, examples 9 to 12: N 10, shares 3, 3, 2, ceilings 10, 6, 10; the last is the frame after the third */
    static const struct { size_t waiting[3], turn, packets[3], filler, then; } marked[] = {
        {{20, 1, 0}, 0, {9, 1, 0}, 0, 1}, {{0, 20, 0}, 0, {0, 6, 0}, 4, 2},
        {{20, 20, 20}, 0, {4, 4, 2}, 0, 2}, {{16, 16, 18}, 2, {4, 3, 3}, 0, 1}};
    struct keshgurvat_settings s = {20, 10, {3, 3, 2}, {10, 6, 10}};
    for (size_t i = 0; i < 4; i++) {
        struct keshgurvat_sender state = keshgurvat_sender_fresh();
        lend(&store, NULL, 12288);
        for (size_t id = 0; id < 3; id++)
            if (marked[i].waiting[id]) load(&state, s, 12288, id, 20 * marked[i].waiting[id], i);
        state.turn = marked[i].turn;
        struct keshgurvat_framed f = frame(&state, s, 12288, 230, i);
        const size_t *want = marked[i].packets;
        check(f.packets.a == want[0] && f.packets.b == want[1] && f.packets.c == want[2] && f.filler == marked[i].filler
                  && f.next.turn == marked[i].then, "marked example", 9 + i);
    }
}

int main(int argc, char **argv) {
    chance = argc > 1 ? strtoul(argv[1], NULL, 0) : 1;
    test_fresh();
    test_marked();
    test_disperse();
    test_packet_check();
    test_settings();
    test_sender_calls();
    test_counts();
    test_waiting();
    test_starts();
    test_start_edges();
    test_ring_bytes();
    test_across();
    test_full();
    test_receiver_calls();
    test_dropped();
    for (unsigned long t = 0; t < 40; t++) test_receiver_run(t);
    for (unsigned long t = 0; t < 24; t++) test_run(t, t % 4 == 3, t < 2);
    for (unsigned long t = 0; t < 80; t++) test_changes(t);
    for (unsigned long t = 0; t < 60; t++) test_ring_run(t);
    test_seen();
    test_often();
    if (failed == 0) test_fixed_store();
    printf("%lu passed, %lu failed\n", passed, failed);
    return failed != 0 || passed == 0;
}
