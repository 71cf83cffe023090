# Five taps of a low-pass filter in 16 bits: Q15 inputs and coefficients, each product truncated
# to Q15, the sum exact. Do 32 bits hold each product and each partial sum, and how far is the
# output from that of exact arithmetic?
@q15 = fixed<-15,dn>;
m0 = 0.0625 * x0;
m1 = 0.25 * x1;
m2 = 0.375 * x2;
m3 = 0.25 * x3;
m4 = 0.0625 * x4;
s1 = q15(m0) + q15(m1);
s2 = s1 + q15(m2);
s3 = s2 + q15(m3);
y = s3 + q15(m4);
exact = m0 + m1 + m2 + m3 + m4;
{ @FIX(x0,-15) /\ @FIX(x1,-15) /\ @FIX(x2,-15) /\ @FIX(x3,-15) /\ @FIX(x4,-15)
  /\ x0 in [-1,1] /\ x1 in [-1,1] /\ x2 in [-1,1] /\ x3 in [-1,1] /\ x4 in [-1,1]
  -> m0 in [-2,0x7fffffffp-30] /\ m1 in [-2,0x7fffffffp-30] /\ m2 in [-2,0x7fffffffp-30]
  /\ m3 in [-2,0x7fffffffp-30] /\ m4 in [-2,0x7fffffffp-30] /\ s1 in [-1b16,0x7fffffffp-15]
  /\ s2 in [-1b16,0x7fffffffp-15] /\ s3 in [-1b16,0x7fffffffp-15] /\ y in [-1b16,0x7fffffffp-15]
  /\ y - exact in ? }
