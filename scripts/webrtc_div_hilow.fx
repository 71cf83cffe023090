# WebRTC SPL WebRtcSpl_DivW32HiLow: approx = 2^29 / den_hi, one Newton step approx * (2 - den *
# approx) with hi and low halves of 15 bits
D = dh + dl;
R = 1 / D;
a = fixed<-14,dn>(1 / dh);
t = dh * a + fixed<-30,dn>(dl * a);
u = 2 - t;
uh = fixed<-14,dn>(u);
ul = fixed<-30,dn>(u - uh);
r = uh * a + fixed<-29,dn>(ul * a);
{ @FIX(dh,-15) /\ dh in [0.5,32767b-15] /\ @FIX(dl,-30) /\ dl in [0,32767b-30] -> u in [0,2] /\ r -
  a * (2 - D * a) in ? /\ r - R in ? }
a * (2 - D * a) - R -> (a - R) * (a - R) * -D { D <> 0 };
r ~ a * (2 - D * a);
1 / dh - R -> dl / (dh * D) { dh <> 0, D <> 0 };
