/* A level sensor: a reading of 12 bits is scaled to 16, then smoothed; the state is kept here.
   ranges: raw=0..4095 */
#include <stdint.h>

uint16_t tank_level(uint16_t raw)
{
    static int32_t acc;     /* 4 more bits than the reading */
    int32_t scaled = raw << 8;
    acc += (scaled - acc) >> 5;
    return (uint16_t)(acc >> 4);
}
