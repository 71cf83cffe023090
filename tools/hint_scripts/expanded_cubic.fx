# Horner's form in Q16 beside the sum of powers.
@q = fixed<-16,ne>;
c3 = 5b-5; c2 = 11b-5; c1 = 23b-5;
h1 q= c3 * x - c2;
h2 q= h1 * x + c1;
h3 q= h2 * x;
M = c3 * (x * x * x) - c2 * (x * x) + c1 * x;
{ x in [-1,1] -> h3 - M in [-5b-17,5b-17] }
