# The logistic map in 16 bits.
@q = fixed<-16,dn>;
y q= r * x * (1 - x);
{ r in [2,4] /\ x in [0,1] -> y in ? /\ y - r * x * (1 - x) in ? }
