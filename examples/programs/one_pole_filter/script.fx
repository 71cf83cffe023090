# One step of a one-pole filter in Q15 beside the exact filter, whose state is Y. What is assumed
# of the old states is what is asked of the new ones: so it holds of every step after a start that
# meets it. The first two goals: 32 bits hold the product and the sum.
@q = fixed<-15,dn>;
y1 = q((15 * y + x) * 1b-4);
Y1 = (15 * Y + x) * 1b-4;
{ @FIX(x,-15) /\ @FIX(y,-15) /\ x in [-1,32767b-15]
  /\ y in [-1,32767b-15] /\ y - Y in [-15b-15,0]
  -> 15 * y in [-1b16,0x7fffffffp-15] /\ 15 * y + x in [-1b16,0x7fffffffp-15]
  /\ y1 in [-1,32767b-15] /\ y1 - Y1 in [-15b-15,0] }
y1 - Y1 -> (y1 - (15 * y + x) * 1b-4) + (y - Y) * 15b-4;
