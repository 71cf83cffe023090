/* 2^x for a fraction x in Q15 by a polynomial of degree 4 in Horner's form; result in Q14.
   ranges: x=0..32767 */
#include <stdint.h>
uint16_t exp2_poly(uint16_t x)
{
    static const int16_t c[5] = { 443, 1694, 7931, 22700, 0 };
    int32_t y = c[0];
    for (int k = 1; k < 4; k++)
        y = ((y * x) >> 15) + c[k];
    y = (y * x + (1 << 15)) >> 16;
    return (uint16_t)(16384 + y);
}
