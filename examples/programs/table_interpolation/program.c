/* 2^x for x in [0, 1): x has 15 fraction bits, the table of 33 entries and the result have 14. */
#include <stdint.h>

static const uint16_t table[33] = {
    16384, 16743, 17109, 17484, 17867, 18258, 18658, 19066, 19484, 19911, 20347,
    20792, 21247, 21713, 22188, 22674, 23170, 23678, 24196, 24726, 25268, 25821,
    26386, 26964, 27554, 28158, 28774, 29405, 30048, 30706, 31379, 32066, 32768};

/* ranges: x=0..2^15-1 */
int32_t exp2_q14(int32_t x) {
    int32_t at = x >> 10, t = x & 1023;
    int32_t a = table[at], b = table[at + 1];
    return a + (((b - a) * t) >> 10);
}
