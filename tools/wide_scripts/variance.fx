# The variance of two samples by their mean.
@q = fixed<-16,ne>;
m q= 0.5 * a + 0.5 * b;
v q= 0.5 * ((a - m) * (a - m)) + 0.5 * ((b - m) * (b - m));
{ a in [0,1] /\ b in [0,1] -> v in ? /\ v - 0.25 * (a - b) * (a - b) in ? }
