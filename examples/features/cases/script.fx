# A number is shifted left until it is at least 1/2: a table has the factor for each range.
@q = fixed<-15,dn>;
y q= k * x;
{ @FIX(x,-15) /\ x in [0.125,1]
  -> x in [0.5,1] /\ k in [1,1]
  \/ x in [0.25,0.5] /\ k in [2,2]
  \/ x in [0.125,0.25] /\ k in [4,4]
  -> y in ? /\ y - k * x in ? }
