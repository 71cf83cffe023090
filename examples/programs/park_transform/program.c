/* Park's transform in Q15: the current (a, b) as seen from a rotor at an angle with cosine c and
   sine s. The parts of (c, s) lie from -32767 to 32767. */
#include <stdint.h>

/* ranges: c=-32767..32767 s=-32767..32767 */
void park(int16_t a, int16_t b, int16_t c, int16_t s, int32_t *d, int32_t *q) {
    *d = (a * c + b * s) >> 15;
    *q = (b * c - a * s) >> 15;
}
