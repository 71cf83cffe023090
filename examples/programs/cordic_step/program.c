/* The fourth rotation of a CORDIC, in Q24: a product by 2^-3 is a shift. */
#include <stdint.h>

/* ranges: x=-2^25..2^25 y=-2^25..2^25 */
void rotate(int32_t *x, int32_t *y) {
    int32_t xs = *x >> 3;
    int32_t ys = *y >> 3;
    *x -= ys;
    *y += xs;
}
