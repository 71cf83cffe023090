# Two fades after each other; weights are in 1/256.
@q = fixed<-15,ne>;
v = a + q((b - a) * t);
m = v + q((c - v) * w);
{ @FIX(a,-15) /\ @FIX(b,-15) /\ @FIX(c,-15) /\ @FIX(t,-8) /\ @FIX(w,-8)
  /\ a in [-1,1] /\ b in [-1,1] /\ c in [-1,1] /\ t in [0,1] /\ w in [0,1] -> m in [-1,1] }
