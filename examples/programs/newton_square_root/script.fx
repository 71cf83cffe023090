# One step of Newton's iteration for a square root. The root is the variable s, and a is its
# square. The hint -> is an identity that the program checks; the hint ~ says that r1 is the step
# exact with roundings. The first two goals: 32 bits hold the quotient and the sum.
@q = fixed<-15,dn>;
a = s * s;
t = q(a / r0);
r1 = q((r0 + t) * 1b-1);
exact = (r0 + a / r0) * 1b-1;
{ @FIX(r0,-15) /\ @FIX(a,-30) /\ s in [0.5,1] /\ r0 in [0.5,1] /\ r0 - s in [-1b-8,1b-8]
  -> t in [0,0xffffffffp-15] /\ r0 + t in [0,0xffffffffp-15] /\ r1 in [0,1] /\ r1 - exact in ?
  /\ r1 - s in ? }
exact - s -> (r0 - s) * (r0 - s) / (2 * r0);
r1 ~ exact;
