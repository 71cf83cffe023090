# Two steps of Goldschmidt's division in Q30, beside the same steps in exact arithmetic (N and D),
# and beside the quotient. The first hint is an identity that the program checks: the error is the
# fourth power of the divisor's distance from 1. The second says that n2 is N2 with roundings. The
# first eight goals: 64 bits hold each product, and 32 bits the rest, none with a sign.
@q = fixed<-30,dn>;
f0 = 2 - d0;
n1 = q(n0 * f0);
d1 = q(d0 * f0);
f1 = 2 - d1;
n2 = q(n1 * f1);
N1 = n0 * (2 - d0);
D1 = d0 * (2 - d0);
N2 = N1 * (2 - D1);
{ @FIX(d0,-30) /\ @FIX(n0,-30) /\ n0 in [0,1] /\ d0 in [0.9375,1.0625]
  -> f0 in [0,0xffffffffp-30] /\ n0 * f0 in [0,0xffffffffffffffffp-60]
  /\ n1 in [0,0xffffffffp-30] /\ d0 * f0 in [0,0xffffffffffffffffp-60]
  /\ d1 in [0,0xffffffffp-30] /\ f1 in [0,0xffffffffp-30]
  /\ n1 * f1 in [0,0xffffffffffffffffp-60] /\ n2 in [0,0xffffffffp-30] /\ n2 - N2 in ?
  /\ n2 - n0 / d0 in ? }
N2 - n0 / d0 -> -((1 - d0) * (1 - d0) * ((1 - d0) * (1 - d0))) * (n0 / d0);
n2 ~ N2;
