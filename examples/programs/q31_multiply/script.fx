# A product in Q31, rounded to nearest and clipped at the greatest number of 32 bits.
@q = fixed<-31,nu>;
p = q(a * b);
{ @FIX(a,-31) /\ @FIX(b,-31) /\ a in [-1,0x7fffffffp-31] /\ b in [-1,0x7fffffffp-31]
  -> not p <= 0x7fffffffp-31 /\ y in [0x7fffffffp-31,0x7fffffffp-31]
  \/ p <= 0x7fffffffp-31 /\ p - y in [0,0]
  -> a * b in [-2,0x7fffffffffffffffp-62] /\ a * b + 1b-32 in [-2,0x7fffffffffffffffp-62]
  /\ p in ? /\ y in [-1,0x7fffffffp-31] /\ p - a * b in ? /\ p - y in ? }
