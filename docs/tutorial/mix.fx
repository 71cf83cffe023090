# Q15: a whole number n of the routine stands for n * 2^-15.
@q = fixed<-15,dn>;
d = b - a;
p = q(d * t);
r = a + p;
exact = a + (b - a) * t;
{ a in [0,1] /\ b in [0,1] /\ t in [0,1]
  -> r in ? /\ r - exact in ? }
