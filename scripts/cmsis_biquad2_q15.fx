# CMSIS-DSP arm_biquad_cascade_df1_q15, two stages, postShift 1 (coefficients halved in Q15),
# 64-bit accumulator, out = acc >> 14; second stage fed by the first
@s = fixed<-15,dn>;
y = s(2 * (1044b-15 * x0 + 2088b-15 * x1 + 1044b-15 * x2 + 21000b-15 * y1 - 7500b-15 * y2));
Y = 2 * (1044b-15 * x0 + 2088b-15 * x1 + 1044b-15 * x2 + 21000b-15 * Y1 - 7500b-15 * Y2);
z = s(2 * (8192b-15 * y + 4096b-15 * y1 + 8192b-15 * y2 - 3000b-15 * z1 - 5000b-15 * z2));
Z = 2 * (8192b-15 * Y + 4096b-15 * Y1 + 8192b-15 * Y2 - 3000b-15 * Z1 - 5000b-15 * Z2);
{ @FIX(x0,-15) /\ @FIX(x1,-15) /\ @FIX(x2,-15) /\ @FIX(y1,-15) /\ @FIX(y2,-15) /\ @FIX(z1,-15) /\
  @FIX(z2,-15)
  /\ x0 in [-0.25,0.25] /\ x1 in [-0.25,0.25] /\ x2 in [-0.25,0.25]
  /\ y1 in [-0.4,0.4] /\ y2 in [-0.4,0.4] /\ z1 in [-0.5,0.5] /\ z2 in [-0.5,0.5]
  /\ y1 - Y1 in [-1b-12,0] /\ y2 - Y2 in [-1b-12,0] /\ z1 - Z1 in [-1b-11,1b-11] /\ z2 - Z2 in
    [-1b-11,1b-11]
  -> y in [-1,32767b-15] /\ z in [-1,32767b-15] /\ y - Y in ? /\ z - Z in ? }
