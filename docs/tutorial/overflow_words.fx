# The greatest word of 16 bits is 32767.
{ a in [-1,32767b-15] /\ b in [-1,32767b-15] /\ t in [0,32767b-15]
  -> (b - a) * t in [-2,0x7fffffffp-30] }
