/* A value in Q15 to ten fraction bits, to nearest, ties to even. */
#include <stdint.h>

/* ranges: x=2^15..2^16 */
int32_t to_q10(int32_t x) {
    return (x + 15 + ((x >> 5) & 1)) >> 5;
}
