# Two smoothers after each other, with weights that aren't known. The error of the second state
# is hardly larger than the errors that both states had.
@q = fixed<-24,dn>;
y1 = y + q(k * (x - y));
z1 = z + q(m * (y1 - z));
Y1 = Y + k * (x - Y);
Z1 = Z + m * (Y1 - Z);
{ @FIX(x,-24) /\ @FIX(y,-24) /\ @FIX(z,-24) /\ x in [-1,1] /\ y in [-1,1] /\ z in [-1,1]
  /\ k in [0,1] /\ m in [0,1] /\ y - Y in [-1b-16,1b-16] /\ z - Z in [-1b-16,1b-16]
  -> z1 - Z1 in [-0.0000155,0.0000153] }
