/* The sine on [0, 1/2] as x + x * ((c5 * z + c3) * z) with z = x * x, all in Q30. */
#include <stdint.h>

static int32_t multiply(int32_t a, int32_t b) {
    return (int32_t)(((int64_t)a * b + (1 << 29)) >> 30);
}

/* ranges: x=0..2^29 */
int32_t sine(int32_t x) {
    const int32_t c3 = -178956971, c5 = 8947849;
    int32_t z = multiply(x, x);
    int32_t h1 = multiply(c5, z) + c3;
    int32_t h2 = multiply(h1, z);
    return x + multiply(x, h2);
}
