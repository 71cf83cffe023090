# Does the product fit 32 bits? Their range in Q30 is [-2, 2).
{ a in [-1,1] /\ b in [-1,1] /\ t in [0,1]
  -> (b - a) * t in [-2,0x7fffffffp-30] }
