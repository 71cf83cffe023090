# A rotation by a rounded sine and cosine.
@q = fixed<-15,ne>;
d q= a * c + b * s;
D = a * C + b * S;
{ a in [-1,1] /\ b in [-1,1] /\ c in [-1,1] /\ s in [-1,1] /\ c - C in [-1b-15,1b-15] /\ s - S in [-1b-15,1b-15] -> d - D in ? }
