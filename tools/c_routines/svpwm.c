/* Space vector modulation by injection of the mean of the greatest and the least phase.
   ranges: ua=-16384..16384 ub=-16384..16384 uc=-16384..16384 */
#include <stdint.h>
#define CLAMP(x, lo, hi) ((x) < (lo) ? (lo) : (x) > (hi) ? (hi) : (x))
typedef struct { uint16_t a, b, c; } duty_t;
void svpwm(int16_t ua, int16_t ub, int16_t uc, duty_t *duty)
{
    int32_t max = ua, min = ua;
    if (ub > max) max = ub;
    if (uc > max) max = uc;
    if (ub < min) min = ub;
    if (uc < min) min = uc;
    int32_t off = (max + min) / 2;
    duty->a = (uint16_t)CLAMP(ua - off + 16384, 0, 32767);
    duty->b = (uint16_t)CLAMP(ub - off + 16384, 0, 32767);
    duty->c = (uint16_t)CLAMP(uc - off + 16384, 0, 32767);
}
