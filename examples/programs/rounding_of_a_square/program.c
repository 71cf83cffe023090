/* A value in Q30 is cut to Q15, and its square is, too. */
#include <stdint.h>

/* ranges: xx=0..2^30 */
int32_t square(int32_t xx) {
    int32_t x = xx >> 15;
    return (x * x) >> 15;
}
