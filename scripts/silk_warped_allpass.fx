# Opus/SILK silk_warped_autocorrelation_FIX, the all-pass chain: t = SMLAWB(s0, s1 - t0, w), (b *
# w) >> 16 truncated; three sections against exact ones
@w = fixed<0,dn>;
t1 = s0 + w((s1 - x) * l);
t2 = s1 + w((s2 - t1) * l);
t3 = s2 + w((s3 - t2) * l);
T1 = S0 + (S1 - X) * l;
T2 = S1 + (S2 - T1) * l;
T3 = S2 + (S3 - T2) * l;
{ @FIX(l,-16) /\ l in [0.1,0.4] /\ @FIX(x,0) /\ @FIX(s0,0) /\ @FIX(s1,0) /\ @FIX(s2,0) /\ @FIX(s3,0)
  /\ x in [-1b23,1b23] /\ s0 in [-1b23,1b23] /\ s1 in [-1b24,1b24] /\ s2 in [-1b24,1b24] /\ s3 in
    [-1b24,1b24]
  /\ x - X in [0,0] /\ s0 - S0 in [-1,0] /\ s1 - S1 in [-2,2] /\ s2 - S2 in [-2,2] /\ s3 - S3 in
    [-2,2]
  -> t3 in [-2147483648,2147483647] /\ t1 - T1 in ? /\ t2 - T2 in ? /\ t3 - T3 in ? }
