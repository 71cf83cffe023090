# One Newton step for 1/d in Q24, each operation truncated: distance to 1/d.
@q = fixed<-24,dn>;
p q= d * r0;
t q= 2 - p;
r1 q= r0 * t;
{ d in [1,2] /\ r0 in [0.25,1.5] /\ r0 -/ 1 / d in [-1b-8,1b-8] -> r1 - 1 / d in [-1.7e-5,1.7e-7] }
r0 * (2 - d * r0) - 1 / d -> (1 - r0 / (1 / d)) * (1 - r0 / (1 / d)) * (-1 / d);
