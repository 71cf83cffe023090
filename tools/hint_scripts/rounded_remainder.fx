# A rounded part of a sum that is known.
@q = fixed<-10,dn>;
{ x + y in [-0.125,0.125] /\ y in [3,4] -> q(x) in [-4.13,-2.87] }
