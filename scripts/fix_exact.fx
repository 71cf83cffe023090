# exact steps: a difference and a product that need no rounding, and a shift that does
@q = fixed<-15,ne>;
@w = fixed<-30,zr>;
{ @FIX(a,-15) /\ a in [-1,1] /\ @FIX(b,-15) /\ b in [-1,1] ->
  q(a - b) - (a - b) in [0,0] /\ w(a * b) - a * b in [0,0] /\ q(a * b) - a * b in ? /\ q(a * 0.5) -
    a * 0.5 in ? }
