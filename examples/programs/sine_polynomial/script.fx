# The sine on [0, 1/2] in Horner's form with Q30 roundings and coefficients: beside the same
# polynomial in exact arithmetic, and beside the sine itself. Of the sine the script says how far
# Taylor's polynomial T is above it. There k3 and k5 stand for -1/6 and 1/120, from which c3 and
# c5 differ by half a unit at most. The first ten goals: 64 bits hold each product with its half
# unit, and 32 bits what is cast or added.
@q = fixed<-30,nu>;
c3 = -178956971b-30;
c5 = 8947849b-30;
z q= x * x;
h1 q= c5 * z + c3;
h2 q= h1 * z;
s q= x + x * h2;
Mz = x * x;
Ms = x + x * ((c5 * Mz + c3) * Mz);
T = x + x * ((k5 * Mz + k3) * Mz);
{ @FIX(x,-30) /\ x in [0,0.5]
  /\ c3 - k3 in [-1b-31,1b-31] /\ c5 - k5 in [-1b-31,1b-31]
  /\ T - sine in [0,1.551e-6]
  -> x * x + 1b-31 in [-8,0x7fffffffffffffffp-60] /\ z in [-2,0x7fffffffp-30]
  /\ c5 * z + 1b-31 in [-8,0x7fffffffffffffffp-60] /\ q(c5 * z) in [-2,0x7fffffffp-30]
  /\ h1 in [-2,0x7fffffffp-30] /\ h1 * z + 1b-31 in [-8,0x7fffffffffffffffp-60]
  /\ h2 in [-2,0x7fffffffp-30] /\ x * h2 + 1b-31 in [-8,0x7fffffffffffffffp-60]
  /\ q(x * h2) in [-2,0x7fffffffp-30] /\ s in [-2,0x7fffffffp-30] /\ s - Ms in ?
  /\ s - sine in ? }
Ms - T -> x * Mz * ((c5 - k5) * Mz + (c3 - k3));
s - sine -> (s - Ms) + ((Ms - T) + (T - sine));
