# CORDIC rotation step number 3, direction s of -1 or 1, arithmetic shifts with floor
@q = fixed<-16,dn>;
xn = x - s * q(y * 1b-3);
yn = y + s * q(x * 1b-3);
zn = z - s * 8150b-16;
XN = x - s * (y * 1b-3);
YN = y + s * (x * 1b-3);
{ @FIX(x,-16) /\ @FIX(y,-16) /\ @FIX(z,-16) /\ x in [-2,2] /\ y in [-2,2] /\ z in [-0.25,0.25] /\
  @FIX(s,0) /\ s in [-1,1] ->
  xn - XN in ? /\ yn - YN in ? /\ zn in ? }
