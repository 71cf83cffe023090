/* A phase detector by products, and a loop filter that is clipped: the phase's increment.
   ranges: s_integ=-2^24..2^24 i=-32768..32767 q=-32768..32767 ref_i=-32768..32767
   ref_q=-32768..32767 kp=0..4096 ki=0..256 */
#include <stdint.h>

typedef struct { int32_t integ; } pll_t;

int32_t pll(pll_t *s, int16_t i, int16_t q, int16_t ref_i, int16_t ref_q, int16_t kp, int16_t ki)
{
    int32_t err = (q * ref_i - i * ref_q) >> 15;
    int32_t next = s->integ + ki * err;
    if (next > (1 << 24))
        next = 1 << 24;
    else if (next < -(1 << 24))
        next = -(1 << 24);
    s->integ = next;
    return (next >> 4) + ((kp * err) >> 8);
}
