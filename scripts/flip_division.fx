# FLIP (binary32 division, RAIM 2009): v = 2^-25 + s * a(t), Horner with truncated 32x32 high
# products and alternating signs; s in [1,2), t in [0,1)
@m = fixed<-32,dn>;
r5 = 1b-2 - m(t * 3b-5);
r4 = 7b-4 - m(t * r5);
r3 = 13b-4 - m(t * r4) + 1b-8;
r2 = 1 - 1b-12 - m(t * r3);
r1 = 1 - m(t * r2);
v = fixed<-31,dn>(1b-25 + s * r1);
R5 = 1b-2 - t * 3b-5;
R4 = 7b-4 - t * R5;
R3 = 13b-4 - t * R4 + 1b-8;
R2 = 1 - 1b-12 - t * R3;
R1 = 1 - t * R2;
V = 1b-25 + s * R1;
{ @FIX(t,-23) /\ t in [0,8388607b-23] /\ @FIX(s,-23) /\ s in [1,16777215b-23] -> r1 >= 0 /\ v in
  [0,4] /\ v - V in [-1b-28,1b-28] /\ v - V in ? }
