/* One step of Newton's iteration for the square root of a, in Q30; the root is in Q15. */
#include <stdint.h>

/* ranges: a=2^28..2^30 r0=2^14..2^15 */
uint32_t step(uint32_t a, uint32_t r0) {
    return (r0 + a / r0) >> 1;
}
