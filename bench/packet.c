/* The check of one data packet in plain C, with the same refusals in the same order. */
#include "crc.h"
#include "packet.h"

uint32_t plain_check(size_t p, const uint8_t *bytes, size_t len) {
    if (p == 0 || p > 255) return 13;
    if (len != p + 3) return 1;
    if (plain_crc16(bytes, p + 1) != (uint16_t)(bytes[p + 1] << 8 | bytes[p + 2])) return 16;
    if ((bytes[0] & 0x08) && bytes[1] > p - 1) return 16;
    return 0;
}
