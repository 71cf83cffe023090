@q = fixed<-12,ne>;
{ x in [0,100] /\ d in [2,3] -> q(x) / d - x / d in [-1b-14,1b-14] }
