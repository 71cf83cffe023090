# Opus/CELT mathops.c celt_exp2_frac: f in Q14 (a Q10 fraction << 4), D0..D3 in Q14, MULT16_16_Q15
# of Q14 by Q14 halves; relative error to the exact cubic
@q = fixed<-14,dn>;
e = 16383b-14 + q(f * (22804b-14 + q(f * (14819b-14 + q(f * 10204b-14 / 2)) / 2)) / 2);
E = 16383b-14 + f * (22804b-14 + f * (14819b-14 + f * 10204b-14 / 2) / 2) / 2;
{ @FIX(f,-10) /\ f in [0,1023b-10] -> e in [0.99,2] /\ e - E in ? /\ e -/ E in ? }
