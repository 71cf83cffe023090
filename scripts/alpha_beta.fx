# alpha-beta tracker: predicted position, residual, corrected position and speed
@q = fixed<-16,ne>;
xp = x + q(v * 655b-16);
r = z - xp;
xn = xp + q(r * 32768b-16);
vn = v + q(r * 6554b-12);
Xp = X + V * 655b-16;
R = z - Xp;
Xn = Xp + R * 32768b-16;
Vn = V + R * 6554b-12;
{ @FIX(x,-16) /\ x in [-100,100] /\ @FIX(v,-16) /\ v in [-50,50] /\ @FIX(z,-16) /\ z in [-101,101]
  /\
  x - X in [-1b-10,1b-10] /\ v - V in [-1b-8,1b-8] ->
  xn - Xn in ? /\ vn - Vn in ? /\ xn in ? }
