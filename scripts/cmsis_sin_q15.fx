# CMSIS-DSP arm_sin_q15: table of 512 entries, fract in Q15; sin = ((0x8000 - f) * a >> 16), + (f
# * b >> 16), << 1; S is the true sine, near the chord
@h = fixed<-15,dn>;
p = h((1 - f) * a / 2);
q = h(p + f * b / 2);
y = 2 * q;
L = a + f * (b - a);
{ @FIX(f,-15) /\ @FIX(a,-15) /\ @FIX(b,-15) /\ f in [0,32767b-15] /\ a in [-1,32767b-15] /\ b in
  [-1,32767b-15]
  /\ b - a in [-403b-15,403b-15] /\ S - L in [-1b-14,1b-14]
  -> y in ? /\ y - L in ? /\ y - S in ? }
