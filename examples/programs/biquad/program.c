/* One step of a low-pass filter, direct form I: inputs, state and output in Q15, coefficients in Q14. */
#include <stdint.h>

int32_t biquad(int16_t x0, int16_t x1, int16_t x2, int16_t y2) {
    int32_t sum = 4799 * x0 + 9598 * x1 + 4799 * x2 - 2811 * y2;
    return (sum + (1 << 13)) >> 14;
}
