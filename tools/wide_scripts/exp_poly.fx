# A cubic in Horner form for the exponential.
@q = fixed<-16,dn>;
p1 q= 0.078125 * x + 0.2265625;
p2 q= p1 * x + 0.6953125;
p3 q= p2 * x + 1;
M = ((0.078125 * x + 0.2265625) * x + 0.6953125) * x + 1;
{ @FIX(x,-16) /\ x in [0,1] -> p3 in ? /\ p3 - M in ? }
