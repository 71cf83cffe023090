# One step of Newton's iteration for 1/d in Q30: from a seed that is within 2^-8 of it,
# relatively, to one within about 2^-16. The hints -> are identities that the program checks; the
# hint ~ says that r1 is the step exact with roundings. The first five goals: 64 bits hold both
# products, and 32 bits e, f and r1, none with a sign.
@q = fixed<-30,dn>;
e = q(d * r0);
f = 2 - e;
r1 = q(r0 * f);
exact = r0 * (2 - d * r0);
{ @FIX(d,-30) /\ @FIX(r0,-30)
  /\ d in [1,2] /\ r0 in [0.25,1.5] /\ r0 -/ 1 / d in [-1b-8,1b-8]
  -> d * r0 in [0,0xffffffffffffffffp-60] /\ e in [0,0xffffffffp-30] /\ f in [0,0xffffffffp-30]
  /\ r0 * f in [0,0xffffffffffffffffp-60] /\ r1 in [0,0xffffffffp-30] /\ r1 - exact in ?
  /\ r1 - 1 / d in ? }
exact - 1 / d -> (1 - r0 / (1 / d)) * (1 - r0 / (1 / d)) * (-1 / d);
d * r0 -> r0 / (1 / d);
r1 ~ exact;
