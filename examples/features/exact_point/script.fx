# A product in Q15, rounded down, of words in [0, 1]: its error, which `at` shows at one point.
@q = fixed<-15,dn>;
y = q(a * b);
{ @FIX(a,-15) /\ @FIX(b,-15) /\ a in [0,1] /\ b in [0,1] -> y in ? /\ y - a * b in ? }
