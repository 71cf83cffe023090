# A value between two others, by a weight: it doesn't leave their range.
r = x + fixed<-15,dn>((z - x) * k);
{ @FIX(x,-15) /\ @FIX(z,-15) /\ @FIX(k,-15) /\ x in [0,1] /\ z in [0,1] /\ k in [0,1]
  -> r in [0,1] }
