/* One step of Newton's iteration for 1/d: d and the approximation r0 in Q30, products truncated. */
#include <stdint.h>

/* ranges: d=2^30..2^31 r0=2^28..3*2^29 */
uint32_t step(uint32_t d, uint32_t r0) {
    uint32_t e = (uint32_t)(((uint64_t)d * r0) >> 30);
    uint32_t f = (2u << 30) - e;
    return (uint32_t)(((uint64_t)r0 * f) >> 30);
}
