/* A decimator: three integrators over sixteen words from a cleared state; the gain is 816.
   ranges: x[16]=-32768..32767 */
#include <stdint.h>
#define R 16
int16_t cic3(const int16_t *x)
{
    int32_t i1 = 0, i2 = 0, i3 = 0;
    int k;
    for (k = 0; k < R; ++k) {
        i1 += x[k];
        i2 += i1;
        i3 += i2;
    }
    return (int16_t)(i3 / 816);
}
