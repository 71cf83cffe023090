# Opus/CELT bands.c bitexact_log2tan: FRAC_MUL16(a,b) = (a * b + 2^14) >> 15; difference of two
# quadratics of sine and cosine in Q15
@F = fixed<0,nu>;
u = F(s * (F(s * -2597 / 32768) + 7932) / 32768);
v = F(c * (F(c * -2597 / 32768) + 7932) / 32768);
o = u - v;
O = (s * (s * -2597 / 32768 + 7932) - c * (c * -2597 / 32768 + 7932)) / 32768;
{ @FIX(s,0) /\ @FIX(c,0) /\ s in [16384,32767] /\ c in [16384,32767] -> o - O in ? /\ o in ? }
