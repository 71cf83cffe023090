# A step whose state s has an error of its own, against the exact state S.
@q = fixed<-15,ne>;
y q= s - 0.25 * s * x;
Y = S - 0.25 * S * x;
{ s in [-1,1] /\ x in [0,1] /\ s - S in [-1b-10,1b-10] -> y - Y in [-0.00105,0.00105] }
