/* libjpeg, jidctint.c: one row of the inverse cosine transform, CONST_BITS 13, PASS1_BITS 2.
   ranges: in[8]=-16384..16383 out[8]=0..0 */
#include <stdint.h>
#define CONST_BITS 13
#define PASS1_BITS 2
#define FIX_0_298631336 2446
#define FIX_0_390180644 3196
#define FIX_0_541196100 4433
#define FIX_0_765366865 6270
#define FIX_0_899976223 7373
#define FIX_1_175875602 9633
#define FIX_1_501321110 12299
#define FIX_1_847759065 15137
#define FIX_1_961570560 16069
#define FIX_2_053119869 16819
#define FIX_2_562915447 20995
#define FIX_3_072711026 25172
#define DESCALE(x, n) (((x) + (1 << ((n) - 1))) >> (n))
void idct_1d(const int16_t *restrict in, int32_t *restrict out)
{
    int32_t tmp0, tmp1, tmp2, tmp3, tmp10, tmp11, tmp12, tmp13, z1, z2, z3, z4, z5;
    z2 = in[2];
    z3 = in[6];
    z1 = (z2 + z3) * FIX_0_541196100;
    tmp2 = z1 + z3 * (-FIX_1_847759065);
    tmp3 = z1 + z2 * FIX_0_765366865;
    tmp0 = (in[0] + in[4]) << CONST_BITS;
    tmp1 = (in[0] - in[4]) << CONST_BITS;
    tmp10 = tmp0 + tmp3;
    tmp13 = tmp0 - tmp3;
    tmp11 = tmp1 + tmp2;
    tmp12 = tmp1 - tmp2;
    tmp0 = in[7];
    tmp1 = in[5];
    tmp2 = in[3];
    tmp3 = in[1];
    z1 = tmp0 + tmp3;
    z2 = tmp1 + tmp2;
    z3 = tmp0 + tmp2;
    z4 = tmp1 + tmp3;
    z5 = (z3 + z4) * FIX_1_175875602;
    tmp0 = tmp0 * FIX_0_298631336;
    tmp1 = tmp1 * FIX_2_053119869;
    tmp2 = tmp2 * FIX_3_072711026;
    tmp3 = tmp3 * FIX_1_501321110;
    z1 = z1 * (-FIX_0_899976223);
    z2 = z2 * (-FIX_2_562915447);
    z3 = z3 * (-FIX_1_961570560);
    z4 = z4 * (-FIX_0_390180644);
    z3 += z5;
    z4 += z5;
    tmp0 += z1 + z3;
    tmp1 += z2 + z4;
    tmp2 += z2 + z3;
    tmp3 += z1 + z4;
    out[0] = DESCALE(tmp10 + tmp3, CONST_BITS - PASS1_BITS);
    out[7] = DESCALE(tmp10 - tmp3, CONST_BITS - PASS1_BITS);
    out[1] = DESCALE(tmp11 + tmp2, CONST_BITS - PASS1_BITS);
    out[6] = DESCALE(tmp11 - tmp2, CONST_BITS - PASS1_BITS);
    out[2] = DESCALE(tmp12 + tmp1, CONST_BITS - PASS1_BITS);
    out[5] = DESCALE(tmp12 - tmp1, CONST_BITS - PASS1_BITS);
    out[3] = DESCALE(tmp13 + tmp0, CONST_BITS - PASS1_BITS);
    out[4] = DESCALE(tmp13 - tmp0, CONST_BITS - PASS1_BITS);
}
