# Q31 multiply-accumulate with 8 guard bits: the 40-bit accumulator never overflows over 8 taps
@t = fixed<-31,dn>;
a = t(c0 * x0) + t(c1 * x1) + t(c2 * x2) + t(c3 * x3) + t(c4 * x4) + t(c5 * x5) + t(c6 * x6) + t(c7
  * x7);
A = c0 * x0 + c1 * x1 + c2 * x2 + c3 * x3 + c4 * x4 + c5 * x5 + c6 * x6 + c7 * x7;
{ @FIX(x0,-31) /\ x0 in [-1,1] /\
  @FIX(x1,-31) /\ x1 in [-1,1] /\
  @FIX(x2,-31) /\ x2 in [-1,1] /\
  @FIX(x3,-31) /\ x3 in [-1,1] /\
  @FIX(x4,-31) /\ x4 in [-1,1] /\
  @FIX(x5,-31) /\ x5 in [-1,1] /\
  @FIX(x6,-31) /\ x6 in [-1,1] /\
  @FIX(x7,-31) /\ x7 in [-1,1] /\
  @FIX(c0,-31) /\ c0 in [-1,1] /\
  @FIX(c1,-31) /\ c1 in [-1,1] /\
  @FIX(c2,-31) /\ c2 in [-1,1] /\
  @FIX(c3,-31) /\ c3 in [-1,1] /\
  @FIX(c4,-31) /\ c4 in [-1,1] /\
  @FIX(c5,-31) /\ c5 in [-1,1] /\
  @FIX(c6,-31) /\ c6 in [-1,1] /\
  @FIX(c7,-31) /\ c7 in [-1,1] ->
  a in [-128,127] /\ a - A in ? }
