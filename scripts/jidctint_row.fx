# IJG jidctint.c (islow), first output of a row: CONST_BITS 13, PASS1_BITS 2, DESCALE rounds;
# error of the integer constants against the real ones (given to 2^-20) in the linear form
z1 = (d2 + d6) * 4433;
e2 = z1 - d6 * 15137;
e3 = z1 + d2 * 6270;
e0 = (d0 + d4) * 8192;
e10 = e0 + e3;
w1 = d7 + d1; w2 = d5 + d3; w3 = d7 + d3; w4 = d5 + d1;
w5 = (w3 + w4) * 9633;
o3 = d1 * 12299 - w1 * 7373 + (w5 - w4 * 3196);
y0 = fixed<0,nu>((e10 + o3) * 1b-11);
Y0 = 4 * (d0 + d4 + 1.306562964876 * d2 + 0.541196100146 * d6 + 1.387039845322 * d1 + 1.175875602419
  * d3 + 0.785694958387 * d5 + 0.275899379283 * d7);
{ @FIX(d0,0) /\ @FIX(d1,0) /\ @FIX(d2,0) /\ @FIX(d3,0) /\ @FIX(d4,0) /\ @FIX(d5,0) /\ @FIX(d6,0) /\
  @FIX(d7,0)
  /\ d0 in [-1024,1024] /\ d1 in [-1024,1024] /\ d2 in [-1024,1024] /\ d3 in [-1024,1024] /\ d4 in
    [-1024,1024] /\ d5 in [-1024,1024] /\ d6 in [-1024,1024] /\ d7 in [-1024,1024]
  -> e10 + o3 in [-2147483648,2147483647] /\ y0 - Y0 in ? }
