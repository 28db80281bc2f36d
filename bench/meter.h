/* What crates/meter/out/libmeter.a exports. A slice is handed over as pointer and length. */
#ifndef METER_H
#define METER_H
#include <stddef.h>
#include <stdint.h>
uint8_t meter_crc8(const uint8_t *s, size_t s_len);
uint16_t meter_crc16(const uint8_t *s, size_t s_len);
uint32_t meter_check(size_t p, const uint8_t *bytes, size_t bytes_len);
uint32_t meter_disperse(const uint8_t *input, size_t input_len, uint8_t *output, size_t output_len);
struct meter_seen {
    uint32_t number, count, service;
    uint8_t robustness, byte;
};
struct meter_seen meter_mdi_read(const uint8_t *packet, size_t packet_len, size_t at);
uint32_t meter_mdi_write(uint32_t count, const uint8_t *fac, size_t fac_len, const uint8_t *sdc, size_t sdc_len, const uint8_t *sdci,
                         size_t sdci_len, uint8_t robustness, const uint8_t *tist, size_t tist_len, const uint8_t *s0, size_t s0_len,
                         const uint8_t *s1, size_t s1_len, const uint8_t *s2, size_t s2_len, const uint8_t *s3, size_t s3_len,
                         uint8_t *out, size_t out_len);
#endif
