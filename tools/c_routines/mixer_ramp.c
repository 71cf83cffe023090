/* Audio: two channels are crossfaded over a block of eight samples, the gain ramps from g0 to g1.
   ranges: a[8]=-32768..32767 b[8]=-32768..32767 g0=0..32767 g1=0..32767 out[8]=0..0 */
#include <stdint.h>
void mixer_ramp(const int16_t *restrict a, const int16_t *restrict b, int16_t *restrict out,
                int16_t g0, int16_t g1)
{
    int32_t step = (int32_t)g1 - g0;
    for (int i = 0; i < 8; i++) {
        int32_t g = g0 + ((step * i) >> 3);
        int32_t acc = g * a[i] + (32767 - g) * b[i];
        out[i] = (int16_t)(acc >> 15);
    }
}
