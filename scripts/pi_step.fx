# PI controller step: gains in Q12, error Q15, integrator Q24
@i = fixed<-24,dn>;
@o = fixed<-15,ne>;
e = r - y;
I1 = I0 + i(205b-12 * e);
u = o(3277b-12 * e + I1);
MI = J0 + 205b-12 * e;
U = 3277b-12 * e + MI;
{ @FIX(r,-15) /\ @FIX(y,-15) /\ r in [-1,1] /\ y in [-1,1] /\ @FIX(I0,-24) /\ I0 in [-1,1] /\ I0 -
  J0 in [-1b-14,0] ->
  I1 - MI in ? /\ u - U in ? /\ u in ? }
