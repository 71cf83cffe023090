/* Motor control: Clarke and Park transform in Q15 with saturation, as vendors' libraries.
   ranges: ia=-32768..32767 ib=-32768..32767 sn=-32767..32767 cs=-32767..32767 */
#include <stdint.h>
#define DIV_BY_SQRT3_Q15 18919
#define SAT16(x) ((x) > 32767 ? 32767 : ((x) < -32768 ? -32768 : (x)))
typedef struct { int16_t d; int16_t q; } dq_t;
void clarke_park(int16_t ia, int16_t ib, int16_t sn, int16_t cs, dq_t *out)
{
    int32_t beta = (DIV_BY_SQRT3_Q15 * (int32_t)ia + DIV_BY_SQRT3_Q15 * 2 * (int32_t)ib) >> 15;
    int16_t beta16 = (int16_t)SAT16(beta);
    int32_t d = (((int32_t)ia * cs) >> 15) + (((int32_t)beta16 * sn) >> 15);
    int32_t q = (((int32_t)beta16 * cs) >> 15) - (((int32_t)ia * sn) >> 15);
    out->d = (int16_t)SAT16(d);
    out->q = (int16_t)SAT16(q);
}
