# Park's transform in Q15. Do 32 bits hold the products and sums, how far is the result from exact
# arithmetic, and is the length of the current kept? (c, s) is the table's pair: its length is 1
# but for two roundings.
@t = fixed<-15,dn>;
D = a * c + b * s;
Q = b * c - a * s;
d = t(D);
q = t(Q);
{ @FIX(a,-15) /\ @FIX(b,-15) /\ @FIX(c,-15) /\ @FIX(s,-15)
  /\ a in [-1,32767b-15] /\ b in [-1,32767b-15]
  /\ c in [-32767b-15,32767b-15] /\ s in [-32767b-15,32767b-15]
  /\ c * c + s * s in [0.9998,1.0001] /\ a * a + b * b in [0,1]
  -> a * c in [-2,0x7fffffffp-30] /\ b * s in [-2,0x7fffffffp-30]
  /\ b * c in [-2,0x7fffffffp-30] /\ a * s in [-2,0x7fffffffp-30] /\ D in [-2,0x7fffffffp-30]
  /\ Q in [-2,0x7fffffffp-30] /\ d - D in ? /\ q - Q in ? /\ D * D + Q * Q in ? }
D * D + Q * Q -> (a * a + b * b) * (c * c + s * s);
