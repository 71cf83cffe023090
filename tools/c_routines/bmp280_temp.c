/* Bosch BMP280: the temperature's compensation in 32-bit integers, hundredths of a degree.
   ranges: adc_T=0..1048575 dig_T1=26000..29000 dig_T2=25000..27000 dig_T3=-1000..50 */
#include <stdint.h>
int32_t bmp280_temp(int32_t adc_T, uint16_t dig_T1, int16_t dig_T2, int16_t dig_T3)
{
    int32_t var1, var2, t_fine;
    var1 = ((((adc_T >> 3) - ((int32_t)dig_T1 << 1))) * ((int32_t)dig_T2)) >> 11;
    var2 = (((((adc_T >> 4) - ((int32_t)dig_T1)) * ((adc_T >> 4) - ((int32_t)dig_T1))) >> 12) *
            ((int32_t)dig_T3)) >> 14;
    t_fine = var1 + var2;
    return (t_fine * 5 + 128) >> 8;
}
