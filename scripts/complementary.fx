# complementary filter of an angle: a (t + w dt) + (1 - a) m
@q = fixed<-20,dn>;
g q= t + w * 10486b-20;
n q= 1027604b-20 * g + 20972b-20 * m;
N = 1027604b-20 * (T + w * 10486b-20) + 20972b-20 * m;
{ @FIX(t,-20) /\ t in [-4,4] /\ @FIX(w,-12) /\ w in [-40,40] /\ @FIX(m,-20) /\ m in [-4,4] /\ t - T
  in [-1b-13,1b-13] ->
  n - N in [-0x1.02p-13,1b-13] /\ n in ? }
