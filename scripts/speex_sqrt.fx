# Speex fixed-point spx_sqrt: x in Q14 on [0.25,1], cubic 3634, 21173, -12627, 4204 in Q14,
# MULT16_16_Q14 truncates; x = s * s
@q = fixed<-14,dn>;
x = s * s;
r = 3634b-14 + q(x * (21173b-14 + q(x * (-12627b-14 + q(x * 4204b-14)))));
P = 3634b-14 + x * (21173b-14 + x * (-12627b-14 + x * 4204b-14));
{ @FIX(x,-14) /\ s in [0.5,1] -> r - P in ? /\ r - s in [-0.011,0.011] }
$ s in 64;
