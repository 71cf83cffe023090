# 2^x between two entries a and b of a table in Q14, whose exact values are A and B. The entries
# err by half a unit, and the line between exact values lies above the function, by h * h / 8 * 4
# * ln(2)^2 / 2 at most, where h is 1/32. The first three goals: 32 bits hold the difference, the
# product and the sum.
@q = fixed<-14,dn>;
y = a + q((b - a) * t);
line = A + (B - A) * t;
{ @FIX(a,-14) /\ @FIX(b,-14) /\ @FIX(t,-10)
  /\ a in [1,2] /\ b in [1,2] /\ b - a in [0,0.05] /\ t in [0,1023b-10]
  /\ a - A in [-1b-15,1b-15] /\ b - B in [-1b-15,1b-15] /\ line - f in [0,1.18e-4]
  -> b - a in [-1b17,0x7fffffffp-14] /\ (b - a) * t in [-128,0x7fffffffp-24]
  /\ y in [-1b17,0x7fffffffp-14] /\ y - f in ? }
y - f -> (q((b - a) * t) - (b - a) * t) + ((a - A) * (1 - t) + (b - B) * t) + (line - f);
$ t in 32;
