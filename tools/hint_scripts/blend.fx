# A blend of two values with a rounded weight.
@q = fixed<-15,ne>;
u = q(w);
p q= u * a; r q= (1 - u) * b;
y = p + r;
{ w in [0,1] /\ a in [0,1] /\ b in [0,1] -> y - (w * a + (1 - w) * b) in [-3b-16,3b-16] }
