/* Audio: two channels are mixed over a block of eight samples, with gains in Q14 up to 2.
   ranges: a[8]=-32768..32767 b[8]=-32768..32767 ga=0..32767 gb=0..32767 out[8]=0..0 */
#include <stdint.h>

static int16_t sat16(int32_t x)
{
    if (x > 32767)
        return 32767;
    if (x < -32768)
        return -32768;
    return (int16_t)x;
}

void mixer(const int16_t *restrict a, const int16_t *restrict b, int16_t *restrict out,
           int16_t ga, int16_t gb)
{
    for (int i = 0; i < 8; i++)
        *out++ = sat16(((ga * *a++) >> 14) + ((gb * *b++) >> 14));
}
