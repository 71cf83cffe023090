# radix-2 FFT butterfly with a twiddle from a table and a halving with rounding
@q = fixed<-15,nu>;
tr = br * wr - bi * wi;
ti = br * wi + bi * wr;
xr = q((ar + tr) * 0.5);
yr = q((ar - tr) * 0.5);
xi = q((ai + ti) * 0.5);
XR = (ar + (br * Wr - bi * Wi)) * 0.5;
YR = (ar - (br * Wr - bi * Wi)) * 0.5;
XI = (ai + (br * Wi + bi * Wr)) * 0.5;
{ @FIX(ar,-15) /\ ar in [-1,1] /\ @FIX(ai,-15) /\ ai in [-1,1] /\ @FIX(br,-15) /\ br in [-1,1] /\
  @FIX(bi,-15) /\ bi in [-1,1] /\
  @FIX(wr,-15) /\ @FIX(wi,-15) /\ wr in [-1,1] /\ wi in [-1,1] /\ wr - Wr in [-1b-16,1b-16] /\ wi -
    Wi in [-1b-16,1b-16] ->
  xr - XR in ? /\ yr - YR in ? /\ xi - XI in ? /\ xr in ? }
