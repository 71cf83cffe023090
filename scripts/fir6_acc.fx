# 6-tap FIR, Q15 samples and coefficients, exact accumulator, one rounding to Q15
acc = -236b-15 * x0 + 4426b-15 * x1 + 12194b-15 * x2 + 12194b-15 * x3 + 4426b-15 * x4 - 236b-15 *
  x5;
y = fixed<-15,ne>(acc);
{ @FIX(x0,-15) /\ x0 in [-1,32767b-15] /\
  @FIX(x1,-15) /\ x1 in [-1,32767b-15] /\
  @FIX(x2,-15) /\ x2 in [-1,32767b-15] /\
  @FIX(x3,-15) /\ x3 in [-1,32767b-15] /\
  @FIX(x4,-15) /\ x4 in [-1,32767b-15] /\
  @FIX(x5,-15) /\ x5 in [-1,32767b-15] ->
  y in ? /\ y - acc in ? }
