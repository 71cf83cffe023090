# The same, and the inputs are words: multiples of 2^-15.
@q = fixed<-15,dn>;
d = b - a;
p = q(d * t);
r = a + p;
exact = a + (b - a) * t;
{ @FIX(a,-15) /\ @FIX(b,-15) /\ @FIX(t,-15)
  /\ a in [0,1] /\ b in [0,1] /\ t in [0,1]
  -> r - exact in ? }
