# One Newton step of an inverse root: x is 1 / s^2, and y is near s.
@q = fixed<-24,ne>;
x = 1 / (s * s);
y1 q= y * (1.5 - 0.5 * x * y * y);
{ s in [1,2] /\ y -/ s in [-1b-8,1b-8] -> y1 in ? /\ y1 -/ s in ? }
