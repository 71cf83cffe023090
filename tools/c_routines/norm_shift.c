/* Block floating point: a word is moved left by an exponent that is an input.
   ranges: x=-32768..32767 e=0..15 */
#include <stdint.h>
int32_t norm_shift(int16_t x, uint8_t e)
{
    int32_t y = (int32_t)x << e;
    return y - (y >> 2);
}
