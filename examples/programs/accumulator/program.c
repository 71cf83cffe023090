/* Four products of 16-bit samples and 12-bit coefficients. */
#include <stdint.h>

/* ranges: s=-32768..32767 c=-2048..2047 */
int32_t dot(const int16_t s[4], const int16_t c[4]) {
    int32_t sum = 0;
    for (int i = 0; i < 4; i++)
        sum += s[i] * c[i];
    return sum;
}
