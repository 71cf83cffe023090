# Between two table entries in Q15, with a truncated product: where is the result, and how
# far from exact arithmetic? The inputs are multiples of 2^-15, so that only the product errs.
@q = fixed<-15,dn>;
d q= b - a;
p q= d * t;
r q= a + p;
Mr = a + (b - a) * t;
{ @FIX(a,-15) /\ @FIX(b,-15) /\ @FIX(t,-15)
  /\ a in [0,1] /\ b in [0,1] /\ t in [0,1]
  -> r in ? /\ r - Mr in ? }
