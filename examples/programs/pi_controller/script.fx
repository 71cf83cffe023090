# A PI controller in Q15 whose integrator, in Q30, is clipped to [-1, 1], and whose output is
# clipped to a word. Each clip is three branches. Do 32 bits hold both
# products and both sums?
@q = fixed<-15,dn>;
sum = i0 + 1638b-15 * e;
wide = 24576b-15 * e + i;
u = q(wide);
{ @FIX(e,-15) /\ e in [-1,32767b-15] /\ @FIX(i0,-30) /\ i0 in [-1,1]
  -> not sum <= 1 /\ i in [1,1]
  \/ not sum >= -1 /\ i in [-1,-1]
  \/ sum in [-1,1] /\ sum - i in [0,0]
  -> not u <= 32767b-15 /\ out in [32767b-15,32767b-15]
  \/ not u >= -1 /\ out in [-1,-1]
  \/ u in [-1,32767b-15] /\ u - out in [0,0]
  -> 1638b-15 * e in [-2,0x7fffffffp-30] /\ 24576b-15 * e in [-2,0x7fffffffp-30]
  /\ sum in [-2,0x7fffffffp-30] /\ wide in [-2,0x7fffffffp-30]
  /\ i in [-1,1] /\ out in [-1,32767b-15] /\ u - wide in ? /\ u - out in ? }
