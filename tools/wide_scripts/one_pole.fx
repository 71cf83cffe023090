# y += (x - y) >> 3
@q = fixed<-15,dn>;
d = q((x - y) * 1b-3);
n = y + d;
{ @FIX(x,-15) /\ @FIX(y,-15) /\ x in [-1,1] /\ y in [-1,1] -> n in ? /\ n - (0.875 * y + 0.125 * x) in ? }
