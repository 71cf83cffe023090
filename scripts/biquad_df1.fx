# direct form I biquad, Q14 coefficients, 40-bit accumulator, output to Q15; errors of the old
# outputs as hypotheses
y = fixed<-15,ne>(1105b-14 * x0 + 2210b-14 * x1 + 1105b-14 * x2 + 18727b-14 * y1 - 6763b-14 * y2);
Y = 1105b-14 * x0 + 2210b-14 * x1 + 1105b-14 * x2 + 18727b-14 * Y1 - 6763b-14 * Y2;
{ @FIX(x0,-15) /\ x0 in [-1,32767b-15] /\
  @FIX(x1,-15) /\ x1 in [-1,32767b-15] /\
  @FIX(x2,-15) /\ x2 in [-1,32767b-15] /\
  @FIX(y1,-15) /\ @FIX(y2,-15) /\ y1 in [-1,1] /\ y2 in [-1,1] /\
  y1 - Y1 in [-1b-13,1b-13] /\ y2 - Y2 in [-1b-13,1b-13] ->
  y - Y in ? /\ y in ? }
