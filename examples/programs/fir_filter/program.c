/* Five taps of a low-pass filter: inputs, coefficients and output in Q15, each product truncated. */
#include <stdint.h>

int32_t fir(const int16_t x[5]) {
    static const int16_t c[5] = {2048, 8192, 12288, 8192, 2048};
    int32_t y = 0;
    for (int i = 0; i < 5; i++)
        y += (c[i] * x[i]) >> 15;
    return y;
}
