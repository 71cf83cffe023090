/* A butterfly of a radix-2 transform in Q15: a + w * b and a - w * b, halved. The inputs lie in
   [-1/2, 1/2]; the factor w has parts from -32767 to 32767. */
#include <stdint.h>

typedef struct { int16_t re, im; } complex16;

/* ranges: a=-2^14..2^14 b=-2^14..2^14 w=-32767..32767 */
void butterfly(complex16 *a, complex16 *b, complex16 w) {
    int32_t tr = (w.re * b->re - w.im * b->im) >> 15;
    int32_t ti = (w.re * b->im + w.im * b->re) >> 15;
    int32_t ar = a->re, ai = a->im;
    a->re = (int16_t)((ar + tr) >> 1);
    a->im = (int16_t)((ai + ti) >> 1);
    b->re = (int16_t)((ar - tr) >> 1);
    b->im = (int16_t)((ai - ti) >> 1);
}
