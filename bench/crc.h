/* The check words of ETSI ES 201 980, annex D, in plain C: what the proved code is compared with. */
#ifndef CRC_H
#define CRC_H
#include <stddef.h>
#include <stdint.h>
/* to be called once, before the other two */
void plain_crc_fill(void);
uint8_t plain_crc8(const uint8_t *s, size_t n);
uint16_t plain_crc16(const uint8_t *s, size_t n);
#endif
