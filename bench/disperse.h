#ifndef DISPERSE_H
#define DISPERSE_H
#include <stddef.h>
#include <stdint.h>
uint32_t plain_disperse(const uint8_t *input, size_t input_len, uint8_t *output, size_t output_len);
#endif
