# Bilinear interpolation in 8 fraction bits.
@q = fixed<-8,dn>;
t q= a + (b - a) * u;
w q= c + (d - c) * u;
r q= t + (w - t) * v;
M = a + (b - a) * u + ((c + (d - c) * u) - (a + (b - a) * u)) * v;
{ a in [0,255] /\ b in [0,255] /\ c in [0,255] /\ d in [0,255] /\ u in [0,1] /\ v in [0,1] -> r in ? /\ r - M in ? }
