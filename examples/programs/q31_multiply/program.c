/* A product in Q31, rounded to nearest and clipped: -1 times -1 is 1, which Q31 hasn't. */
#include <stdint.h>

int32_t multiply(int32_t a, int32_t b) {
    int64_t p = ((int64_t)a * b + (1LL << 30)) >> 31;
    return p > INT32_MAX ? INT32_MAX : (int32_t)p;
}
