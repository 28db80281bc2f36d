/* The MDI packet in plain C: read into a record, and written from one. */
#ifndef MDI_H
#define MDI_H
#include <stdbool.h>
#include <stddef.h>
#include <stdint.h>
struct plain_fac {
    uint8_t base, identity, rm, occupancy, interleaver, msc, sdc, services, reconfiguration, channel;
    uint32_t service;
    uint8_t short_id, audio_ca, language, audio_data, descriptor, data_ca, reserved;
};
struct plain_sdc {
    bool given;
    uint8_t afs;
    size_t size;
    uint8_t body[1024];
};
struct plain_description {
    uint8_t level_a, level_b;
    size_t count;
    struct {
        uint16_t a, b;
    } stream[4];
};
struct plain_stamp {
    bool given;
    uint16_t utco, milliseconds;
    uint64_t seconds;
};
struct plain_record {
    uint32_t count;
    struct plain_fac fac;
    struct plain_sdc sdc;
    struct plain_description description;
    uint8_t robustness;
    struct plain_stamp time;
};
/* a part of the caller's bytes */
struct plain_bytes {
    const uint8_t *at;
    size_t n;
};
void plain_mdi_fac(struct plain_fac *f, const uint8_t *value);
void plain_mdi_sdc(struct plain_sdc *s, const uint8_t *value, size_t n);
void plain_mdi_description(struct plain_description *d, const uint8_t *value, size_t n);
void plain_mdi_stamp(struct plain_stamp *t, const uint8_t *value);
uint32_t plain_mdi_read(const uint8_t *packet, size_t len, struct plain_record *r, size_t *place);
uint32_t plain_mdi_write(const struct plain_record *r, const struct plain_bytes stream[4], uint8_t *out, size_t room, size_t *length);
#endif
