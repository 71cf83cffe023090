# 16-tap symmetric FIR, folded: exact pre-adds, products rounded to Q20, sum to Q15
s0 = x0 + x15;
s1 = x1 + x14;
s2 = x2 + x13;
s3 = x3 + x12;
s4 = x4 + x11;
s5 = x5 + x10;
s6 = x6 + x9;
s7 = x7 + x8;
y = fixed<-15,ne>(fixed<-20,ne>(78b-15 * s0) + fixed<-20,ne>(-30b-15 * s1) + fixed<-20,ne>(-390b-15
  * s2) + fixed<-20,ne>(-817b-15 * s3) + fixed<-20,ne>(-273b-15 * s4) + fixed<-20,ne>(2259b-15 * s5)
  + fixed<-20,ne>(6231b-15 * s6) + fixed<-20,ne>(9325b-15 * s7));
My = 78b-15 * s0 + -30b-15 * s1 + -390b-15 * s2 + -817b-15 * s3 + -273b-15 * s4 + 2259b-15 * s5 +
  6231b-15 * s6 + 9325b-15 * s7;
{ @FIX(x0,-15) /\ x0 in [-1,32767b-15] /\
  @FIX(x1,-15) /\ x1 in [-1,32767b-15] /\
  @FIX(x2,-15) /\ x2 in [-1,32767b-15] /\
  @FIX(x3,-15) /\ x3 in [-1,32767b-15] /\
  @FIX(x4,-15) /\ x4 in [-1,32767b-15] /\
  @FIX(x5,-15) /\ x5 in [-1,32767b-15] /\
  @FIX(x6,-15) /\ x6 in [-1,32767b-15] /\
  @FIX(x7,-15) /\ x7 in [-1,32767b-15] /\
  @FIX(x8,-15) /\ x8 in [-1,32767b-15] /\
  @FIX(x9,-15) /\ x9 in [-1,32767b-15] /\
  @FIX(x10,-15) /\ x10 in [-1,32767b-15] /\
  @FIX(x11,-15) /\ x11 in [-1,32767b-15] /\
  @FIX(x12,-15) /\ x12 in [-1,32767b-15] /\
  @FIX(x13,-15) /\ x13 in [-1,32767b-15] /\
  @FIX(x14,-15) /\ x14 in [-1,32767b-15] /\
  @FIX(x15,-15) /\ x15 in [-1,32767b-15] ->
  y - My in ? /\ y in ? }
