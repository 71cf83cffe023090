# linear interpolation keeps the hull: a + (b - a) t in [0,1], with one unit of slack; needs more
# than interval products
@q = fixed<-15,ne>;
r = a + q((b - a) * t);
M = a + (b - a) * t;
{ @FIX(a,-15) /\ @FIX(b,-15) /\ @FIX(t,-8) /\ a in [0,1] /\ b in [0,1] /\ t in [0,255b-8] ->
  r - M in ? /\ r in [-1b-15,32769b-15] }
M -> a * (1 - t) + b * t;
