# PID step with a filtered derivative, all operations rounded down to Q20
@q = fixed<-20,dn>;
d1 q= 14746b-14 * d0 + 1638b-14 * (e - e0);
i1 q= i0 + 82b-14 * e;
u q= 26214b-14 * e + i1 + 4096b-14 * d1;
D1 = 14746b-14 * d0 + 1638b-14 * (e - e0);
J1 = i0 + 82b-14 * e;
U = 26214b-14 * e + J1 + 4096b-14 * D1;
{ @FIX(e,-15) /\ e in [-2,2] /\ @FIX(e0,-15) /\ e0 in [-2,2] /\ @FIX(d0,-20) /\ d0 in [-4,4] /\
  @FIX(i0,-20) /\ i0 in [-1,1] ->
  d1 - D1 in ? /\ i1 - J1 in ? /\ u - U in ? }
