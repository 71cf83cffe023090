# n / d by two of Newton's steps for 1 / d in Q30, from a seed within 2^-8.
@q = fixed<-30,ne>;
r1 q= r0 * (2 - d * r0);
r2 q= r1 * (2 - d * r1);
y q= n * r2;
{ n in [0,1] /\ d in [1,2] /\ r0 in [0.25,1.5] /\ r0 -/ 1 / d in [-1b-8,1b-8] -> y - n / d in [-6e-9,6e-9] }
