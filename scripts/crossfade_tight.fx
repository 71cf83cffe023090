# crossfade a (1 - t) + b t of two Q15 voices, both products truncated; the stated hull is true;
# halvings of t alone hardly reach it
@q = fixed<-15,dn>;
m = q(a * (1 - t)) + q(b * t);
M = a * (1 - t) + b * t;
{ @FIX(a,-15) /\ a in [-1,1] /\ @FIX(b,-15) /\ b in [-1,1] /\ @FIX(t,-15) /\ t in [0,1] ->
  m - M in ? /\ m in [-65537b-16,1] }
M -> a + (b - a) * t;
m ~ M;
m $ t;
