# Opus/CELT mathops.c celt_rsqrt_norm: n = x - 1 in Q15 (x = (1 + n) / 2), r in Q14 by a
# quadratic, y = x r r - 1, one Householder step; MULT16_16_Q15 truncates
r = 23557b-14 + fixed<-14,dn>(n * (-13490b-14 + fixed<-14,dn>(n * 6713b-14)));
r2 = fixed<-13,dn>(r * r);
y = (fixed<-13,dn>(r2 * n) + r2) / 2 - 1;
o = r + fixed<-14,dn>(r * fixed<-15,dn>(y * (fixed<-15,dn>(y * 0.375) - 0.5)));
Y = (r * r * n + r * r) / 2 - 1;
O = r + r * (Y * (Y * 0.375 - 0.5));
{ @FIX(n,-15) /\ n in [-0.5,32767b-15] -> r in ? /\ y in [-0.06,0.06] /\ y - Y in ? /\ o - O in ? }
$ n in 64;
