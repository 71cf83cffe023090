/* A sum of two 16-bit words that is clipped to the range of a word. */
#include <stdint.h>

int16_t add(int16_t a, int16_t b) {
    int32_t s = (int32_t)a + b;
    if (s > 32767) return 32767;
    if (s < -32768) return -32768;
    return (int16_t)s;
}
