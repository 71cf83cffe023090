# CMSIS-DSP arm_recip_q31: table start, twice { t = in * out >> 31; t = 0x7FFFFFFF - t; out = out
# * t >> 30 }; out is Q30 of 1 / in with in in [0.5,1); 1 in place of 0x7FFFFFFF costs 2^-31
R = 1 / d;
t0 = fixed<-30,dn>(d * r0);
u0 = 2 - 1b-30 - t0;
r1 = fixed<-30,dn>(r0 * u0);
t1 = fixed<-30,dn>(d * r1);
u1 = 2 - 1b-30 - t1;
r2 = fixed<-30,dn>(r1 * u1);
{ @FIX(d,-31) /\ d in [0.5,2147483647b-31] /\ @FIX(r0,-30) /\ r0 - R in [-1b-6,1b-6] -> r1 in
  [0,2.1] /\ r1 - R in ? /\ r2 - R in ? }
r0 * (2 - d * r0) - R -> (r0 - R) * (r0 - R) * -d { d <> 0 };
r1 * (2 - d * r1) - R -> (r1 - R) * (r1 - R) * -d { d <> 0 };
r1 ~ r0 * (2 - d * r0);
r2 ~ r1 * (2 - d * r1);
