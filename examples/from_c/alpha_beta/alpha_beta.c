/* An alpha-beta tracker: a position and a velocity follow a measured word.
   ranges: s_x=-32768..32767 s_v=-4096..4095 z=-32768..32767 alpha=0..32768 beta=0..8192 */
#include <stdint.h>

typedef struct { int32_t x; int32_t v; } track_t;

void alpha_beta(track_t *s, int16_t z, int32_t alpha, int32_t beta)
{
    int32_t pred = s->x + (s->v >> 4);
    if (pred > 32767) pred = 32767;
    if (pred < -32768) pred = -32768;
    int32_t res = z - pred;
    s->x = pred + ((res * alpha + (1 << 15)) >> 15);
    s->v = s->v + ((res * beta) >> 15);
}
