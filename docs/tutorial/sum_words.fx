# A sum of two words, stored in Q15: is it exact?
@q = fixed<-15,dn>;
s = q(x + y);
{ @FIX(x,-15) /\ @FIX(y,-15)
  /\ x in [-1,1] /\ y in [-1,1] -> s - (x + y) in [0,0] }
