# An FFT butterfly in Q15 with rounded twiddles.
@q = fixed<-15,dn>;
tr q= wr * br - wi * bi;
yr = ar + tr;
{ @FIX(ar,-15) /\ @FIX(br,-15) /\ @FIX(bi,-15) /\ ar in [-1,1] /\ br in [-1,1] /\ bi in [-1,1] /\ wr in [-1,1] /\ wi in [-1,1]
  /\ wr - Wr in [-1b-16,1b-16] /\ wi - Wi in [-1b-16,1b-16] -> yr - (ar + Wr * br - Wi * bi) in ? }
