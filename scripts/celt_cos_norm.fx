# Opus/CELT mathops.c _celt_cos_pi_2: Q15, MULT16_16_P15 = (a * b + 2^14) >> 15; against the same
# polynomial evaluated exactly
@P = fixed<-15,nu>;
x2 = P(x * x);
c = 1b-15 + ((32767b-15 - x2) + P(x2 * (-7651b-15 + P(x2 * (8277b-15 + P(-626b-15 * x2))))));
X2 = x * x;
C = 1b-15 + ((32767b-15 - X2) + X2 * (-7651b-15 + X2 * (8277b-15 + -626b-15 * X2)));
{ @FIX(x,-15) /\ x in [0,1] -> c - C in ? /\ c in [-1b-10,1] }
