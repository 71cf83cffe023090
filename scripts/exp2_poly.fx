# 2^x on [0,1], degree 5 minimax with Q31 coefficients, Horner truncated to Q31; E is the exact
# value
@q = fixed<-31,dn>;
y q= 2147483418b-31 + x * (1488538504b-31 + x * (515696070b-31 + x * (119971904b-31 + x *
  (19204547b-31 + x * 4072623b-31))));
P = 2147483418b-31 + x * (1488538504b-31 + x * (515696070b-31 + x * (119971904b-31 + x *
  (19204547b-31 + x * 4072623b-31))));
{ @FIX(x,-31) /\ x in [0,1] /\ P - E in [-1.072e-7,1.072e-7] ->
  y in ? /\ y - P in ? /\ y - E in ? }
