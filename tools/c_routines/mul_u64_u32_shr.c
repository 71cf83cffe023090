/* Linux, mul_u64_u32_shr without 128-bit arithmetic, shift 24 (cycles to nanoseconds).
   ranges: a=0..36028797018963967 mul=1..4294967295 */
#include <stdint.h>
uint64_t mul_u64_u32_shr(uint64_t a, uint32_t mul)
{
    uint32_t ah = (uint32_t)(a >> 32);
    uint32_t al = (uint32_t)(a & 0xffffffffu);
    uint64_t ret = ((uint64_t)al * mul) >> 24;
    if (ah)
        ret += ((uint64_t)ah * mul) << (32 - 24);
    return ret;
}
