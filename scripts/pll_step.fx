# digital PLL, type 2 loop filter as in software-defined radio receivers: i' = i + (ki * e) >> 8,
# f = i' + (kp * e) >> 4, phase' = phase + f; against the exact loop
@q = fixed<-23,dn>;
e = ref - ph;
i2 = i + q(e * 3b-12);
f = i2 + q(e * 21b-8);
p2 = ph + f;
E = Ref - Ph;
I2 = I + E * 3b-12;
F = I2 + E * 21b-8;
P2 = Ph + F;
{ @FIX(ref,-23) /\ @FIX(ph,-23) /\ @FIX(i,-23) /\ ref in [-0.25,0.25] /\ ph in [-0.25,0.25] /\ i in
  [-0.01,0.01]
  /\ ref - Ref in [-1b-23,0] /\ ph - Ph in [-1b-18,1b-18] /\ i - I in [-1b-20,1b-20]
  -> p2 in [-1,1] /\ i2 - I2 in ? /\ p2 - P2 in ? }
