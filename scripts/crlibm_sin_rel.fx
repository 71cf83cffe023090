# CRlibm-like sine near 0 with a relative goal: s = x + x * x2 * (s3 + x2 * (s5 + x2 * s7)) in
# fixed 2^-60 and 2^-40 parts; p is the exact polynomial and Sin the sine
@q = fixed<-40,ne>;
@l = fixed<-60,ne>;
x2 = q(x * x);
u = q(-1b-3 - 1b-5 - 1b-7 + q(x2 * q(1b-7 + 1b-11 - q(x2 * 1b-13))));
s = x + l(x * q(x2 * u));
X2 = x * x;
P = x + x * (X2 * (-1b-3 - 1b-5 - 1b-7 + X2 * (1b-7 + 1b-11 - X2 * 1b-13)));
{ @FIX(x,-60) /\ x in [1b-6,1b-3] /\ Sin -/ P in [-1b-9,1b-9] -> s - P in ? /\ s -/ P in ? /\ s -/
  Sin in ? }
