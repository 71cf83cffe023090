/* Two steps of Goldschmidt's division in Q30: n / d for a divisor that lies within 1/16 of 1, as a
   table has made it by a factor for both. Each step multiplies both by 2 - d, and d goes to 1. */
#include <stdint.h>

static uint32_t multiply(uint32_t a, uint32_t b) {
    return (uint32_t)(((uint64_t)a * b) >> 30);
}

/* ranges: n0=0..2^30 d0=15*2^26..17*2^26 */
uint32_t divide(uint32_t n0, uint32_t d0) {
    uint32_t f0 = (2u << 30) - d0;
    uint32_t n1 = multiply(n0, f0), d1 = multiply(d0, f0);
    uint32_t f1 = (2u << 30) - d1;
    return multiply(n1, f1);
}
