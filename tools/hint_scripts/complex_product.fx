# The real part of a complex product by three multiplications.
@q = fixed<-15,ne>;
k1 q= c * (xr + xi);
k2 q= xi * (c + s);
re = k1 - k2;
M = xr * c - xi * s;
{ @FIX(xr,-15) /\ @FIX(xi,-15) /\ @FIX(c,-15) /\ @FIX(s,-15)
  /\ xr in [-1,1] /\ xi in [-1,1] /\ c in [-1,1] /\ s in [-1,1] -> re - M in [-1b-15,1b-15] }
