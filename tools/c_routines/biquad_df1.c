/* CMSIS-DSP, arm_biquad_cascade_df1_q15: one sample of one section, 64-bit sum, saturation.
   ranges: x=-2^15..32767 s_x1=-2^15..32767 s_x2=-2^15..32767 s_y1=-2^15..32767 s_y2=-2^15..32767 */
#include <stdint.h>
typedef int16_t q15_t;
typedef int32_t q31_t;
typedef int64_t q63_t;
typedef struct { q15_t x1, x2, y1, y2; } biquad_state;
static const q15_t coeffs[5] = { 1638, 3276, 1638, 18726, -8926 };
q15_t biquad_df1(biquad_state *s, q15_t x)
{
    q63_t acc = (q31_t)coeffs[0] * x;
    acc += (q31_t)coeffs[1] * s->x1;
    acc += (q31_t)coeffs[2] * s->x2;
    acc += (q31_t)coeffs[3] * s->y1;
    acc += (q31_t)coeffs[4] * s->y2;
    acc = acc >> 14;
    q15_t out = (q15_t)(acc > 32767 ? 32767 : acc < -32768 ? -32768 : acc);
    s->x2 = s->x1;
    s->x1 = x;
    s->y2 = s->y1;
    s->y1 = out;
    return out;
}
