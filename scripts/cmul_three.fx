# complex product with three multiplications, against the four-product form
@q = fixed<-20,dn>;
k1 = q(c * (a + b));
k2 = q(a * (d - c));
k3 = q(b * (c + d));
re = k1 - k3;
im = k1 + k2;
R3 = c * (a + b) - b * (c + d);
I3 = c * (a + b) + a * (d - c);
{ @FIX(a,-15) /\ a in [-1,1] /\ @FIX(b,-15) /\ b in [-1,1] /\ @FIX(c,-15) /\ c in [-1,1] /\
  @FIX(d,-15) /\ d in [-1,1] ->
  re - R3 in ? /\ im - I3 in ? /\ re - (a * c - b * d) in ? /\ im - (a * d + b * c) in ? }
re - (a * c - b * d) -> re - R3;
im - (a * d + b * c) -> im - I3;
