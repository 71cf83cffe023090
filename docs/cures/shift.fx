# A shift by three bits that loses none.
@q = fixed<-15,dn>;
{ @FIX(x,-12) /\ x in [0,1] -> q(x * 1b-3) - x * 1b-3 in [0,0] }
