/* The MDI packet in plain C, with the same refusals, the lowest number over the whole packet. */
#include <string.h>
#include "crc.h"
#include "mdi.h"

static uint32_t get32(const uint8_t *s) { return (uint32_t)s[0] << 24 | (uint32_t)s[1] << 16 | (uint32_t)s[2] << 8 | s[3]; }
static uint64_t get64(const uint8_t *s) { return (uint64_t)get32(s) << 32 | get32(s + 4); }
static void put32(uint8_t *s, uint32_t v) {
    for (int i = 3; i >= 0; i--, v >>= 8) s[i] = (uint8_t)v;
}
static void put64(uint8_t *s, uint64_t v) {
    put32(s, (uint32_t)(v >> 32));
    put32(s + 4, (uint32_t)v);
}
#define NAME(a, b, c, d) ((uint32_t)(a) << 24 | (uint32_t)(b) << 16 | (uint32_t)(c) << 8 | (uint32_t)(d))

/* ---- values */

void plain_mdi_fac(struct plain_fac *f, const uint8_t *value) {
    uint64_t x = get64(value);
    f->base = x >> 63;
    f->identity = x >> 61 & 3;
    f->rm = x >> 60 & 1;
    f->occupancy = x >> 57 & 7;
    f->interleaver = x >> 56 & 1;
    f->msc = x >> 54 & 3;
    f->sdc = x >> 53 & 1;
    f->services = x >> 49 & 15;
    f->reconfiguration = x >> 46 & 7;
    f->channel = x >> 44 & 3;
    f->service = x >> 20 & 0xffffff;
    f->short_id = x >> 18 & 3;
    f->audio_ca = x >> 17 & 1;
    f->language = x >> 13 & 15;
    f->audio_data = x >> 12 & 1;
    f->descriptor = x >> 7 & 31;
    f->data_ca = x >> 6 & 1;
    f->reserved = x & 63;
}

void plain_mdi_sdc(struct plain_sdc *s, const uint8_t *value, size_t n) {
    memset(s, 0, sizeof *s);
    if (n == 0) return;
    s->given = true;
    s->afs = value[0] & 15;
    s->size = n < 3 ? 0 : n - 3 > 1024 ? 1024 : n - 3;
    memcpy(s->body, value + 1, s->size);
}

void plain_mdi_description(struct plain_description *d, const uint8_t *value, size_t n) {
    memset(d, 0, sizeof *d);
    d->level_a = value[0] >> 2 & 3;
    d->level_b = value[0] & 3;
    d->count = n / 3;
    for (size_t i = 0; i < 4 && 3 * i + 4 <= n; i++) {
        const uint8_t *v = value + 1 + 3 * i;
        uint32_t x = (uint32_t)v[0] << 16 | (uint32_t)v[1] << 8 | v[2];
        d->stream[i].a = x >> 12;
        d->stream[i].b = x & 0xfff;
    }
}

void plain_mdi_stamp(struct plain_stamp *t, const uint8_t *value) {
    uint64_t x = get64(value);
    t->given = true;
    t->utco = x >> 50;
    t->seconds = x >> 10 & 0xffffffffff;
    t->milliseconds = x & 1023;
}

static bool not_served(const struct plain_fac *f) {
    return f->base == 1 || f->rm == 1 || f->occupancy >= 6 || f->msc == 1 || f->msc == 2 || f->services == 11 || f->services == 14;
}

static bool ill_formed(const struct plain_description *d, uint8_t mode) {
    bool any_a = false;
    if (d->count == 0 || d->count > 4) return true;
    for (size_t i = 0; i < 4; i++) {
        bool empty = d->stream[i].a == 0 && d->stream[i].b == 0;
        if (empty == (i < d->count)) return true;
        any_a |= d->stream[i].a != 0;
    }
    if (!any_a && d->level_a != 0) return true;
    return mode == 3 && (d->level_a > 1 || d->level_b > 1);
}

/* ---- reading */

enum { PTR, DLFC, FAC, SDC, SDCI, ROBM, STR0, STR1, STR2, STR3, TIST, KNOWN };
struct spot {
    const uint8_t *value; /* null where the item is not there */
    uint32_t bits;
};

static int known(uint32_t name) {
    switch (name) {
    case NAME('*', 'p', 't', 'r'): return PTR;
    case NAME('d', 'l', 'f', 'c'): return DLFC;
    case NAME('f', 'a', 'c', '_'): return FAC;
    case NAME('s', 'd', 'c', '_'): return SDC;
    case NAME('s', 'd', 'c', 'i'): return SDCI;
    case NAME('r', 'o', 'b', 'm'): return ROBM;
    case NAME('s', 't', 'r', '0'): return STR0;
    case NAME('s', 't', 'r', '1'): return STR1;
    case NAME('s', 't', 'r', '2'): return STR2;
    case NAME('s', 't', 'r', '3'): return STR3;
    case NAME('t', 'i', 's', 't'): return TIST;
    default: return KNOWN;
    }
}

/* Which item is the first whose name came earlier; count where none is. */
static size_t again_few(const uint32_t *name, size_t count) {
    for (size_t i = 1; i < count; i++)
        for (size_t j = 0; j < i; j++)
            if (name[j] == name[i]) return i;
    return count;
}

/* The same in at most 33 steps a name: a tree that goes by the name's bits, the lowest first. */
static size_t again_many(const uint32_t *name, size_t count) {
    uint16_t kid[8192][2];
    memset(kid, 0, count * sizeof kid[0]);
    for (size_t i = 1; i < count; i++) {
        size_t node = 0;
        for (uint32_t w = name[i];; w >>= 1) {
            if (name[node] == name[i]) return i;
            size_t next = kid[node][w & 1];
            if (next == 0) {
                kid[node][w & 1] = (uint16_t)i;
                break;
            }
            node = next;
        }
    }
    return count;
}

static bool wrong_lengths(const struct spot *t) {
    if (t[PTR].bits != 64 || t[DLFC].bits != 32 || t[FAC].bits != 72 || t[ROBM].bits != 8) return true;
    uint32_t n = t[SDC].bits;
    if (n != 0 && (n < 24 || n > 8216 || n % 8 != 0)) return true;
    n = t[SDCI].bits;
    if (n != 32 && n != 56 && n != 80 && n != 104) return true;
    for (int i = STR0; i <= STR3; i++)
        if (t[i].bits % 8 != 0) return true;
    return t[TIST].value && t[TIST].bits != 64;
}

/* The numbers 4 to 11, and the record as far as it was read. */
static uint32_t check_items(const struct spot *t, struct plain_record *r) {
    if (!t[PTR].value || !t[DLFC].value || !t[FAC].value || !t[SDCI].value || !t[ROBM].value) return 4;
    if (wrong_lengths(t)) return 5;
    r->robustness = t[ROBM].value[0];
    r->time.given = false;
    if (t[TIST].value) plain_mdi_stamp(&r->time, t[TIST].value);
    if (memcmp(t[PTR].value, "DMDI\0\0", 6) || r->robustness > 3 || (r->time.given && r->time.milliseconds > 999)) return 6;
    if (plain_crc8(t[FAC].value, 8) != t[FAC].value[8]) return 7;
    size_t n = t[SDC].bits / 8;
    const uint8_t *v = t[SDC].value;
    if (n && (v[0] > 15 || plain_crc16(v, n - 2) != (uint16_t)(v[n - 2] << 8 | v[n - 1]))) return 8;
    plain_mdi_fac(&r->fac, t[FAC].value);
    if (not_served(&r->fac)) return 9;
    plain_mdi_description(&r->description, t[SDCI].value, t[SDCI].bits / 8);
    if (ill_formed(&r->description, r->fac.msc)) return 10;
    for (int i = 0; i < 4; i++)
        if (t[STR0 + i].bits / 8 != (uint32_t)r->description.stream[i].a + r->description.stream[i].b) return 11;
    r->count = get32(t[DLFC].value);
    plain_mdi_sdc(&r->sdc, v, n);
    return 0;
}

uint32_t plain_mdi_read(const uint8_t *packet, size_t len, struct plain_record *r, size_t *place) {
    uint32_t name[8192];
    uint16_t offset[8192];
    struct spot t[KNOWN + 1];
    size_t at = 0, count = 0, again;
    uint32_t number;
    *place = 0;
    if (len > 65528) {
        memset(r, 0, sizeof *r);
        return 1;
    }
    memset(t, 0, sizeof t);
    while (len - at >= 8) {
        uint32_t bits = get32(packet + at + 4);
        size_t size = 8 + (size_t)bits / 8 + (bits % 8 != 0);
        if (len - at < size) {
            memset(r, 0, sizeof *r);
            *place = at;
            return 2;
        }
        name[count] = get32(packet + at);
        offset[count] = (uint16_t)at;
        struct spot *s = &t[known(name[count])];
        s->value = packet + at + 8;
        s->bits = bits;
        count++;
        at += size;
    }
    again = count <= 32 ? again_few(name, count) : again_many(name, count);
    if (again < count) {
        number = 3;
        *place = offset[again];
    } else {
        number = check_items(t, r);
    }
    if (number) memset(r, 0, sizeof *r);
    return number;
}

/* ---- writing */

static bool fac_too_large(const struct plain_fac *f) {
    return f->base > 1 || f->identity > 3 || f->rm > 1 || f->occupancy > 7 || f->interleaver > 1 || f->msc > 3 || f->sdc > 1
        || f->services > 15 || f->reconfiguration > 7 || f->channel > 3 || f->service > 0xffffff || f->short_id > 3 || f->audio_ca > 1
        || f->language > 15 || f->audio_data > 1 || f->descriptor > 31 || f->data_ca > 1 || f->reserved > 63;
}

static bool too_large(const struct plain_record *r) {
    static const uint8_t zeros[sizeof r->sdc.body]; /* a loop over the bytes would cost 4,600 at gcc -O2 */
    const struct plain_description *d = &r->description;
    if (fac_too_large(&r->fac) || r->sdc.afs > 15) return true;
    if (r->sdc.size < sizeof zeros && memcmp(r->sdc.body + r->sdc.size, zeros, sizeof zeros - r->sdc.size)) return true;
    if (d->level_a > 3 || d->level_b > 3) return true;
    for (int i = 0; i < 4; i++)
        if (d->stream[i].a > 4095 || d->stream[i].b > 4095) return true;
    if (r->robustness > 3) return true;
    return r->time.given && (r->time.utco > 16383 || r->time.seconds > 0xffffffffff || r->time.milliseconds > 999);
}

static size_t item_size(size_t n) { return n ? n + 8 : 0; }

static uint8_t *put_head(uint8_t *out, uint32_t name, size_t n) {
    put32(out, name);
    put32(out + 4, (uint32_t)(8 * n));
    return out + 8;
}

static uint8_t *put_fac(uint8_t *out, const struct plain_fac *f) {
    out = put_head(out, NAME('f', 'a', 'c', '_'), 9);
    put64(out, (uint64_t)f->base << 63 | (uint64_t)f->identity << 61 | (uint64_t)f->rm << 60 | (uint64_t)f->occupancy << 57
                   | (uint64_t)f->interleaver << 56 | (uint64_t)f->msc << 54 | (uint64_t)f->sdc << 53 | (uint64_t)f->services << 49
                   | (uint64_t)f->reconfiguration << 46 | (uint64_t)f->channel << 44 | (uint64_t)f->service << 20
                   | (uint64_t)f->short_id << 18 | (uint64_t)f->audio_ca << 17 | (uint64_t)f->language << 13
                   | (uint64_t)f->audio_data << 12 | (uint64_t)f->descriptor << 7 | (uint64_t)f->data_ca << 6 | f->reserved);
    out[8] = plain_crc8(out, 8);
    return out + 9;
}

static uint8_t *put_sdc(uint8_t *out, const struct plain_sdc *s) {
    if (!s->given) return out;
    out = put_head(out, NAME('s', 'd', 'c', '_'), s->size + 3);
    out[0] = s->afs;
    memcpy(out + 1, s->body, s->size);
    uint16_t word = plain_crc16(out, s->size + 1);
    out += s->size + 1;
    out[0] = (uint8_t)(word >> 8);
    out[1] = (uint8_t)word;
    return out + 2;
}

static uint8_t *put_description(uint8_t *out, const struct plain_description *d) {
    out = put_head(out, NAME('s', 'd', 'c', 'i'), 1 + 3 * d->count);
    *out++ = (uint8_t)(d->level_a << 2 | d->level_b);
    for (size_t i = 0; i < d->count; i++) {
        uint32_t x = (uint32_t)d->stream[i].a << 12 | d->stream[i].b;
        *out++ = (uint8_t)(x >> 16);
        *out++ = (uint8_t)(x >> 8);
        *out++ = (uint8_t)x;
    }
    return out;
}

uint32_t plain_mdi_write(const struct plain_record *r, const struct plain_bytes stream[4], uint8_t *out, size_t room, size_t *length) {
    const struct plain_description *d = &r->description;
    *length = 0;
    for (int i = 0; i < 4; i++)
        if (stream[i].n > 65528) return 1;
    if (r->sdc.given && r->sdc.size > 1024) return 5;
    if (too_large(r)) return 6;
    if (not_served(&r->fac)) return 9;
    if (ill_formed(d, r->fac.msc)) return 10;
    for (int i = 0; i < 4; i++)
        if (stream[i].n != (size_t)d->stream[i].a + d->stream[i].b) return 11;
    size_t size = 16 + 12 + 17 + (r->sdc.given ? r->sdc.size + 11 : 0) + 9 + 3 * d->count + 9 + (r->time.given ? 16 : 0);
    for (int i = 0; i < 4; i++) size += item_size(stream[i].n);
    if (room < size) return 1;
    uint8_t *to = put_head(out, NAME('*', 'p', 't', 'r'), 8);
    memcpy(to, "DMDI\0\0\0\0", 8);
    to = put_head(to + 8, NAME('d', 'l', 'f', 'c'), 4);
    put32(to, r->count);
    to = put_fac(to + 4, &r->fac);
    to = put_sdc(to, &r->sdc);
    to = put_description(to, d);
    to = put_head(to, NAME('r', 'o', 'b', 'm'), 1);
    *to++ = r->robustness;
    for (uint32_t i = 0; i < 4; i++)
        if (stream[i].n) {
            to = put_head(to, NAME('s', 't', 'r', '0') + i, stream[i].n);
            memcpy(to, stream[i].at, stream[i].n);
            to += stream[i].n;
        }
    if (r->time.given) {
        to = put_head(to, NAME('t', 'i', 's', 't'), 8);
        put64(to, (uint64_t)r->time.utco << 50 | r->time.seconds << 10 | r->time.milliseconds);
        to += 8;
    }
    *length = size;
    return 0;
}
