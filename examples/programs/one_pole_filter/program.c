/* A one-pole low-pass filter, y + (x - y) / 16, in Q15. */
#include <stdint.h>

int16_t one_pole(int16_t y, int16_t x) {
    return (int16_t)((15 * y + x) >> 4);
}
