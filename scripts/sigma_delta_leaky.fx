# second-order sigma-delta modulator with leaky integrators (1 - 2^-7), states in Q20, truncated;
# v is the quantizer's output, here on its positive side (b >= 0, v = 1)
@q = fixed<-20,dn>;
a2 = q(a - a * 1b-7) + (u - v);
b2 = q(b - b * 1b-7) + (a2 - 2 * v);
A2 = A * (1 - 1b-7) + (u - v);
B2 = B * (1 - 1b-7) + (A2 - 2 * v);
{ @FIX(a,-20) /\ @FIX(b,-20) /\ @FIX(u,-20) /\ u in [-0.25,0.25] /\ v in [1,1] /\ a in [-1.5,2.5] /\
  b in [0,4]
  /\ a - A in [-1b-12,0] /\ b - B in [-1b-8,0]
  -> a2 in ? /\ b2 in ? /\ a2 - A2 in ? /\ b2 - B2 in ? }
