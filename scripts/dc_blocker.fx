# DC blocker y = x - x1 + 0.995 y1 with the pole product truncated in Q15
@q = fixed<-15,dn>;
y = (x - x1) + q(32604b-15 * y1);
Y = (x - x1) + 32604b-15 * Y1;
{ @FIX(x,-15) /\ x in [-1,32767b-15] /\
  @FIX(x1,-15) /\ x1 in [-1,32767b-15] /\ @FIX(y1,-15) /\ y1 in [-2,2] /\ y1 - Y1 in [-201b-15,0] ->
    y - Y in [-201b-15,0] /\ y in ? }
