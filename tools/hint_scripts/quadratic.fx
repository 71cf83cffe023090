# A square completed, in Q12 with truncation.
@q = fixed<-12,dn>;
s q= x * x;
y q= s - x + 0.25;
{ x in [0,1] -> y - (x - 0.5) * (x - 0.5) in [-2b-12,0] }
