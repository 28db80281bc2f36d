#ifndef PACKET_H
#define PACKET_H
#include <stddef.h>
#include <stdint.h>
uint32_t plain_check(size_t p, const uint8_t *bytes, size_t len);
#endif
