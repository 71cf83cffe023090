# CORDIC rotation, 8 steps in Q15 with the sign choices as unknowns in {-1,..,1}; shifts truncate;
# exact steps with the same signs
@h = fixed<-15,dn>;
x1 = x0 - s0 * y0;                 y1 = y0 + s0 * x0;
x2 = x1 - s1 * h(y1 / 2);          y2 = y1 + s1 * h(x1 / 2);
x3 = x2 - s2 * h(y2 / 4);          y3 = y2 + s2 * h(x2 / 4);
x4 = x3 - s3 * h(y3 / 8);          y4 = y3 + s3 * h(x3 / 8);
x5 = x4 - s4 * h(y4 / 16);         y5 = y4 + s4 * h(x4 / 16);
x6 = x5 - s5 * h(y5 / 32);         y6 = y5 + s5 * h(x5 / 32);
x7 = x6 - s6 * h(y6 / 64);         y7 = y6 + s6 * h(x6 / 64);
x8 = x7 - s7 * h(y7 / 128);
X1 = x0 - s0 * y0;                 Y1 = y0 + s0 * x0;
X2 = X1 - s1 * (Y1 / 2);           Y2 = Y1 + s1 * (X1 / 2);
X3 = X2 - s2 * (Y2 / 4);           Y3 = Y2 + s2 * (X2 / 4);
X4 = X3 - s3 * (Y3 / 8);           Y4 = Y3 + s3 * (X3 / 8);
X5 = X4 - s4 * (Y4 / 16);          Y5 = Y4 + s4 * (X4 / 16);
X6 = X5 - s5 * (Y5 / 32);          Y6 = Y5 + s5 * (X5 / 32);
X7 = X6 - s6 * (Y6 / 64);          Y7 = Y6 + s6 * (X6 / 64);
X8 = X7 - s7 * (Y7 / 128);
{ @FIX(x0,-15) /\ @FIX(y0,-15) /\ x0 in [0,0.6072] /\ y0 in [0,0.001]
  /\ s0 in [-1,1] /\ s1 in [-1,1] /\ s2 in [-1,1] /\ s3 in [-1,1] /\ s4 in [-1,1] /\ s5 in [-1,1] /\
    s6 in [-1,1] /\ s7 in [-1,1]
  /\ @FIX(s0,0) /\ @FIX(s1,0) /\ @FIX(s2,0) /\ @FIX(s3,0) /\ @FIX(s4,0) /\ @FIX(s5,0) /\ @FIX(s6,0)
    /\ @FIX(s7,0)
  -> x8 in [-4,4] /\ x8 - X8 in ? }
