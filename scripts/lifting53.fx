# one 5/3 wavelet lifting step and its inverse: the even sample comes back exactly
d = o - int<dn>((e0 + e1) * 0.5);
s = e0 + int<dn>((p + d + 2) * 0.25);
b = s - int<dn>((p + d + 2) * 0.25);
{ @FIX(o,0) /\ o in [0,255] /\ @FIX(e0,0) /\ e0 in [0,255] /\ @FIX(e1,0) /\ e1 in [0,255] /\
  @FIX(p,0) /\ p in [-255,255] ->
  d in ? /\ s in ? /\ b - e0 in [0,0] }
b - e0 -> 0;
