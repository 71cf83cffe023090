/* Audio: soft clipping 1.5 x - 0.5 x^3 in Q15.
   ranges: x=-32768..32767 */
#include <stdint.h>

int16_t soft_clip(int16_t x)
{
    int32_t x2 = ((int32_t)x * x) >> 15;
    int32_t x3 = (x2 * x) >> 15;
    int32_t y = (3 * (int32_t)x - x3) >> 1;
    if (y > 32767)
        y = 32767;
    if (y < -32768)
        y = -32768;
    return (int16_t)y;
}
