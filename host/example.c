/* An example host: the Sunday in October with two two-o'clocks. News pages (queue 0), map files (queue 1) and the timetable (queue 2)
   share one packet stream. The machine that sends the map files starts at two o'clock, and so it starts twice; the news must not wait for
   it. Each frame is dispersed for the air; at the far end dispersal gives it back, and it goes packet by packet through the packet check to
   two receivers: in the hall every packet arrives, in the valley some are lost.
   usage: example [FRAMES]: the frames of an hour, 9,000 of 400 ms unless told otherwise. Status 0: in the hall all units are back in time and
   none is dropped, and at both receivers the bytes balance. */
#include <stdio.h>
#include <stdlib.h>
#include <string.h>
#include "keshgurvat.h"

enum { NEWS, MAPS, TIMETABLE, QUEUES };
static const char *const name[QUEUES] = {"news", "maps", "timetable"};
static const struct keshgurvat_settings settings = {
    .p = 97, .n = 12, .share = {4, 3, 1}, .ceiling = {12, 10, 4}}; /* a frame of 12 packets of 100 bytes */
static const size_t map_files = 5000, map_bytes = 1300, page_bytes = 1200, table_bytes = 300;

/* What a host keeps: the sender with its store, each receiver with its buffer. The library keeps nothing. */
static struct keshgurvat_sender sender;
static uint8_t store[KESHGURVAT_STORE], frame[8190], air[8190], far_end[8190];

/* The balance of bytes, of each id at each receiver: each useful byte of an accepted packet is in one of the other four sums. */
enum { USEFUL, DELIVERED, DROPPED, OPEN, SKIPPED, SUMS };
enum { HALL, VALLEY, EARS };
static struct ear {
    const char *name;
    size_t misses, sent; /* of the packets sent to it, number `misses`, twice that and so on are lost; 0: none */
    struct keshgurvat_receiver receiver;
    uint8_t buffer[KESHGURVAT_BUFFER];
    struct line { bool begun; uint8_t next; size_t sum[SUMS]; } line[4]; /* whether a unit is open, the next index */
} ear[EARS] = {{.name = "hall"}, {.name = "valley", .misses = 50}};

/* and its own books: of each queue the units loaded and delivered, and of each unfinished unit when it came and its promise */
static struct book {
    size_t loaded, no_room, delivered, packets, most, longest, promise; /* most: packets that waited at once */
    size_t since[16], bound[16], length[16]; /* by the unit's number modulo 16; at most eight are unfinished */
} book[QUEUES];
static size_t filler, faults; /* filler in packets */

static void fault(const char *what, size_t number) {
    if (faults++ < 10) printf("%s: %zu\n", what, number);
}

/* the bytes of a unit, so that the far end can tell them */
static uint8_t content(size_t id, size_t unit, size_t i) { return (uint8_t)(37 * id + 101 * unit + i + i / 256); }

/* A unit for a queue. With k packets waiting then, its own among them, and a share of s it is wholly sent within k/s frames, rounded up.
   The sender keeps k: no host adds up units. */
static bool offer(size_t id, size_t length, size_t now) {
    const size_t share[QUEUES] = {settings.share.a, settings.share.b, settings.share.c};
    static uint8_t unit[KESHGURVAT_QUEUE];
    struct book *b = &book[id];
    for (size_t i = 0; i < length; i++) unit[i] = content(id, b->loaded, i);
    struct keshgurvat_loaded l = keshgurvat_load(sender, settings, store, sizeof store, id, unit, length);
    if (l.number == 15) { /* the queue is full: the host offers it again after the next frame */
        b->no_room++;
        return false;
    }
    if (l.number) {
        fault("a unit is refused with", l.number);
        return false;
    }
    sender = l.next;
    size_t at = b->loaded++ % 16;
    b->since[at] = now, b->length[at] = length;
    b->bound[at] = (sender.waiting[id] + share[id] - 1) / share[id];
    if (sender.waiting[id] > b->most) b->most = sender.waiting[id];
    return true;
}

static void delivered(size_t id, size_t length, size_t now) {
    struct book *b = &book[id];
    size_t unit = b->delivered++, at = unit % 16, took = now - b->since[at] + 1;
    bool same = unit < b->loaded && length == b->length[at];
    for (size_t i = 0; same && i < length; i++) same = ear[HALL].buffer[KESHGURVAT_QUEUE * id + i] == content(id, unit, i);
    if (!same) fault("a unit came back otherwise", unit);
    if (took > b->bound[at]) fault("a unit came late", unit);
    if (took > b->longest) b->longest = took, b->promise = b->bound[at];
}

/* What stands in a packet. No call tells it: the host reads the first byte and, of a padded packet, the count behind it. */
struct packet { bool first, last; uint8_t id, index; size_t useful; };
static struct packet read_packet(const uint8_t *b) {
    struct packet k = {b[0] & 128, b[0] & 64, b[0] >> 4 & 3, b[0] & 7, b[0] & 8 ? b[1] : settings.p};
    if (k.first && k.last && !k.useful) k.first = k.last = false; /* a null packet begins no unit and ends none */
    return k;
}

static size_t all_ids(const struct ear *e, int s) { return e->line[0].sum[s] + e->line[1].sum[s] + e->line[2].sum[s] + e->line[3].sum[s]; }
static bool balanced(const size_t *sum) { return sum[USEFUL] == sum[DELIVERED] + sum[DROPPED] + sum[OPEN] + sum[SKIPPED]; }

/* An accepted packet. What is delivered and dropped the receiver answers; which bytes are open and which skipped is worked out here from the
   packets, by the receiver's rules in their order, and its record is held against that. */
static void account(struct ear *e, struct packet k, const struct keshgurvat_received *r) {
    struct line *l = &e->line[k.id];
    l->sum[USEFUL] += k.useful, l->sum[DROPPED] += r->dropped;
    if (r->delivered) e->line[r->id].sum[DELIVERED] += r->length;
    if (k.index != l->next) l->begun = false, l->sum[OPEN] = 0; /* any index may be an id's first: no unit is open then */
    l->next = (k.index + 1) % 8;
    if (k.first) l->begun = true, l->sum[OPEN] = 0;
    l->sum[l->begun ? OPEN : SKIPPED] += k.useful;
    if (k.last || l->sum[OPEN] > KESHGURVAT_QUEUE) l->begun = false, l->sum[OPEN] = 0;
    const struct keshgurvat_link *link = &r->next.link[k.id];
    if (link->begun != l->begun || link->len != l->sum[OPEN]) fault("the record has other open bytes than the packets", link->len);
    if (!balanced(l->sum)) fault("the bytes do not balance for id", k.id);
}

static void hear(struct ear *e, const uint8_t *packet, size_t now) {
    if (e->misses && ++e->sent % e->misses == 0) return;
    struct keshgurvat_received r = keshgurvat_receive(e->receiver, settings.p, e->buffer, sizeof e->buffer, packet, settings.p + 3);
    e->receiver = r.next;
    if (r.number) fault("the receiver refuses with", r.number);
    else account(e, read_packet(packet), &r);
    if (r.delivered && !e->misses) delivered(r.id, r.length, now); /* where units are lost, the next is not the next loaded */
}

static void run_frame(size_t now) {
    const size_t size = settings.p + 3, whole = settings.n * size;
    struct keshgurvat_framed f = keshgurvat_frame(sender, settings, store, sizeof store, frame, sizeof frame);
    if (f.number) fault("a frame is refused with", f.number);
    sender = f.next;
    book[NEWS].packets += f.packets.a, book[MAPS].packets += f.packets.b, book[TIMETABLE].packets += f.packets.c;
    filler += f.filler;
    uint32_t there = keshgurvat_disperse(frame, whole, air, sizeof air), back = keshgurvat_disperse(air, whole, far_end, sizeof far_end);
    if (there || back) fault("dispersal is refused with", there ? there : back);
    if (!memcmp(air, frame, whole) || memcmp(far_end, frame, whole)) fault("a frame is not dispersed, or does not come back, at", now);
    for (size_t at = 0; at < whole; at += size) {
        uint32_t number = keshgurvat_packet_check(settings.p, far_end + at, size);
        if (number) fault("a packet is refused with", number);
        for (size_t i = 0; i < EARS; i++) hear(&ear[i], far_end + at, now);
    }
}

/* an hour: the map files one after the other as there is room, a story of up to three news pages now and then, a timetable each minute */
static size_t run_hour(size_t now, unsigned long frames, size_t *maps_left) {
    static size_t page_due;
    for (unsigned long k = 0; k < frames; k++, now++) {
        while (*maps_left && offer(MAPS, map_bytes, now)) (*maps_left)--;
        for (size_t page = 0; now >= page_due && page < 3; page++)
            if (offer(NEWS, page_bytes - now % 200, now) && now % 3 <= page) page_due = now + 9 + now % 17;
        if (now % 150 == 0) offer(TIMETABLE, table_bytes, now);
        run_frame(now);
    }
    return now;
}

static void print_balance(const struct ear *e) {
    size_t sum[SUMS];
    printf("%-10s", e->name);
    for (int s = 0; s < SUMS; s++) printf(" %10zu", sum[s] = all_ids(e, s));
    printf(" %13zu\n", e->misses ? e->sent / e->misses : 0);
    if (!balanced(sum)) fault("the bytes do not balance over all ids", sum[USEFUL]);
    if (!e->misses && sum[DROPPED] + sum[SKIPPED]) fault("dropped or skipped, though every packet comes", sum[DROPPED] + sum[SKIPPED]);
}

int main(int argc, char **argv) {
    char *end = NULL;
    unsigned long hour = argc > 1 ? strtoul(argv[1], &end, 10) : 9000;
    if (argc > 2 || (argc > 1 && (*end || end == argv[1])) || hour < 1 || hour > 1000000) {
        printf("usage: example [FRAMES]: the frames of an hour, 1 to 1000000\n");
        return 2;
    }
    sender = keshgurvat_sender_fresh();
    for (size_t i = 0; i < EARS; i++) ear[i].receiver = keshgurvat_receiver_fresh();
    size_t now = 0, maps_left = 0;
    printf("packets sent           %8s %8s %9s   filler  dropped: hall   valley  not yet loaded\n", name[NEWS], name[MAPS], name[TIMETABLE]);
    for (int turn = 1; turn <= 2; turn++) {
        size_t news = book[NEWS].packets, maps = book[MAPS].packets, table = book[TIMETABLE].packets, none = filler;
        size_t hall = all_ids(&ear[HALL], DROPPED), valley = all_ids(&ear[VALLEY], DROPPED);
        maps_left += map_files; /* two o'clock, and two o'clock again */
        now = run_hour(now, hour, &maps_left);
        printf("%-22s %8zu %8zu %9zu %8zu %14zu %8zu  %zu map files\n", turn == 1 ? "two to three, summer" : "two to three, winter",
               book[NEWS].packets - news, book[MAPS].packets - maps, book[TIMETABLE].packets - table, filler - none,
               all_ids(&ear[HALL], DROPPED) - hall, all_ids(&ear[VALLEY], DROPPED) - valley, maps_left);
    }
    printf("\nqueue        loaded  delivered  no room   packets wait  at most  longest wait  promise\n");
    for (size_t id = 0; id < QUEUES; id++) {
        const struct book *b = &book[id];
        printf("%-10s %8zu %10zu %8zu %14u %8zu %6zu frames %8zu\n", name[id], b->loaded, b->delivered, b->no_room,
               sender.waiting[id], b->most, b->longest, b->promise);
        if (b->delivered + sender.q[id].count != b->loaded) fault("units are missing in queue", id);
    }
    printf("\nbytes          useful  delivered    dropped       open    skipped  packets lost\n");
    for (size_t i = 0; i < EARS; i++) print_balance(&ear[i]);
    printf("\nBytes of units dropped in the night, in the hall: %zu.\n", all_ids(&ear[HALL], DROPPED));
    printf("The longest wait of a news page was %zu frames; the promise was %zu: %s.\n", book[NEWS].longest, book[NEWS].promise,
           faults ? "NOT KEPT" : "kept, by this page and by every other unit");
    return faults != 0;
}
