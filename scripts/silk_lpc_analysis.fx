# Opus/SILK silk_LPC_analysis_filter, order 6: Q12 coefficients, exact 32-bit sum, out =
# RSHIFT_ROUND((in << 12) - sum, 12)
p = b1 * x1 + b2 * x2 + b3 * x3 + b4 * x4 + b5 * x5 + b6 * x6;
o = fixed<0,nu>(x0 - p);
P = B1 * x1 + B2 * x2 + B3 * x3 + B4 * x4 + B5 * x5 + B6 * x6;
{ @FIX(x0,0) /\ @FIX(x1,0) /\ @FIX(x2,0) /\ @FIX(x3,0) /\ @FIX(x4,0) /\ @FIX(x5,0) /\ @FIX(x6,0)
  /\ x0 in [-4096,4096] /\ x1 in [-4096,4096] /\ x2 in [-4096,4096] /\ x3 in [-4096,4096] /\ x4 in
    [-4096,4096] /\ x5 in [-4096,4096] /\ x6 in [-4096,4096]
  /\ @FIX(b1,-12) /\ @FIX(b2,-12) /\ @FIX(b3,-12) /\ @FIX(b4,-12) /\ @FIX(b5,-12) /\ @FIX(b6,-12)
  /\ b1 in [-2,2] /\ b2 in [-2,2] /\ b3 in [-1,1] /\ b4 in [-1,1] /\ b5 in [-0.5,0.5] /\ b6 in
    [-0.5,0.5]
  /\ b1 - B1 in [-1b-13,1b-13] /\ b2 - B2 in [-1b-13,1b-13] /\ b3 - B3 in [-1b-13,1b-13] /\ b4 - B4
    in [-1b-13,1b-13] /\ b5 - B5 in [-1b-13,1b-13] /\ b6 - B6 in [-1b-13,1b-13]
  -> o in [-32768,32768] /\ o - (x0 - P) in ? }
