/* A rotation step through two pointers that may be one: line two reads what line one wrote.
   ranges: x=-16384..16383 y=-16384..16383 */
#include <stdint.h>
void rotate_alias(int32_t *x, int32_t *y)
{
    *x = *x - (*y >> 3);
    *y = *y + (*x >> 3);
}
