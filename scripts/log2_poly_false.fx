# log2(1+x), degree 6, Q28 Horner; the first goal is off by half: six truncations can add up near
# x = 1
@q = fixed<-28,dn>;
y q= x * (387232410b-28 + x * (-192812313b-28 + x * (123016021b-28 + x * (-75037698b-28 + x *
  (33138506b-28 + x * -7102025b-28)))));
P = x * (387232410b-28 + x * (-192812313b-28 + x * (123016021b-28 + x * (-75037698b-28 + x *
  (33138506b-28 + x * -7102025b-28)))));
{ @FIX(x,-28) /\ x in [0,1] /\ P - L in [-2.07e-6,2.07e-6] ->
  y - P in [-1b-26,1b-26] /\ y - L in [-1b-18,1b-18] }
