# sigmoid by a table of Q15 values and linear interpolation; T0 and T1 are the exact table values
@q = fixed<-15,ne>;
y = t0 + q((t1 - t0) * f);
L = T0 + (T1 - T0) * f;
{ @FIX(t0,-15) /\ @FIX(t1,-15) /\ t0 - T0 in [-1b-16,1b-16] /\ t1 - T1 in [-1b-16,1b-16] /\
  T0 in [0,1] /\ T1 in [0,1] /\ T1 - T0 in [0,1b-4] /\ @FIX(f,-10) /\ f in [0,1] /\ L - G in
    [-1b-12,1b-12] ->
  y - L in ? /\ y - G in ? /\ t1 - t0 in ? }
