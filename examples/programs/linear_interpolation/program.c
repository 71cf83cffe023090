/* Between the table entries a and b, all in Q15: a whole number n stands for n * 2^-15. */
#include <stdint.h>

/* ranges: a=0..2^15 b=0..2^15 t=0..2^15 */
int32_t interpolate(int32_t a, int32_t b, int32_t t) {
    int32_t d = b - a;
    int32_t p = (d * t) >> 15;
    return a + p;
}
