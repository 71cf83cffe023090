@q = fixed<-20,ne>;
a q= x * x; b q= y * y;
d q= a - b;
{ x in [0,1] /\ y in [0,1] -> d - (x - y) * (x + y) in [-2b-20,2b-20] }
