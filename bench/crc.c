/* A byte at a time, by a table of 256 entries each: the usual form. */
#include "crc.h"

static uint8_t table8[256];
static uint16_t table16[256];

void plain_crc_fill(void) {
    for (unsigned v = 0; v < 256; v++) {
        unsigned a = v, b = v << 8;
        for (int k = 0; k < 8; k++) {
            a = a << 1 ^ (a & 0x80 ? 0x11d : 0);
            b = b << 1 ^ (b & 0x8000 ? 0x11021 : 0);
        }
        table8[v] = (uint8_t)a;
        table16[v] = (uint16_t)b;
    }
}

uint8_t plain_crc8(const uint8_t *s, size_t n) {
    uint8_t r = 0xff;
    for (size_t i = 0; i < n; i++) r = table8[r ^ s[i]];
    return (uint8_t)~r;
}

uint16_t plain_crc16(const uint8_t *s, size_t n) {
    uint16_t r = 0xffff;
    for (size_t i = 0; i < n; i++) r = (uint16_t)(r << 8 ^ table16[r >> 8 ^ s[i]]);
    return (uint16_t)~r;
}
