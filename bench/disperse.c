/* Energy dispersal in plain C, with the same refusals and in the same way: no table, eight bits at once from those 10 and 18 places before. */
#include "disperse.h"

uint32_t plain_disperse(const uint8_t *input, size_t input_len, uint8_t *output, size_t output_len) {
    if (input_len > 65528 || output_len < input_len) return 1;
    uint32_t bits = 0x1e1ff; /* the newest bit lowest: nine ones, and above them the nine before */
    for (size_t i = 0; i < input_len; i++) {
        bits = bits << 8 | ((bits >> 2 ^ bits >> 10) & 0xff);
        output[i] = input[i] ^ (uint8_t)bits;
    }
    return 0;
}
