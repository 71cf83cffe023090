# Opus/CELT mathops.c celt_log2: n in [-0.5,0.5] Q15, quartic with Q14 coefficients, MULT16_16_Q15
# truncates, result >> 4 (Q10)
@q = fixed<-14,dn>;
g = -6793b-14 + q(n * (15746b-14 + q(n * (-5217b-14 + q(n * (2545b-14 + q(n * -1401b-14)))))));
G = -6793b-14 + n * (15746b-14 + n * (-5217b-14 + n * (2545b-14 + n * -1401b-14)));
o = fixed<-10,dn>(g);
{ @FIX(n,-15) /\ n in [-0.5,0.5] -> g - G in ? /\ o - G in ? /\ o in [-2,1] }
