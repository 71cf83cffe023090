/* A PI controller: error and output in Q15, the integrator in Q30 and clipped to [-1, 1], so that
   it doesn't wind up. The gains are 24576 * 2^-15 = 0.75 and 1638 * 2^-15, which is nearly 0.05. */
#include <stdint.h>

#define ONE (1 << 30)

/* ranges: integral=-2^30..2^30 */
int16_t control(int16_t e, int32_t *integral) {
    int32_t sum = *integral + 1638 * e;
    int32_t i = sum > ONE ? ONE : sum < -ONE ? -ONE : sum;
    *integral = i;
    int32_t u = (24576 * e + i) >> 15;
    return (int16_t)(u > 32767 ? 32767 : u < -32768 ? -32768 : u);
}
