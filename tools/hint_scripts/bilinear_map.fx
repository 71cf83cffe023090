# Between four entries of a table, in whole units; divisions by 256 are shifts.
@f = int<dn>;
u = z00 + f((z01 - z00) * s / 256);
v = z10 + f((z11 - z10) * s / 256);
w = u + f((v - u) * t / 256);
{ @FIX(z00,0) /\ @FIX(z01,0) /\ @FIX(z10,0) /\ @FIX(z11,0) /\ @FIX(s,0) /\ @FIX(t,0)
  /\ z00 in [0,255] /\ z01 in [0,255] /\ z10 in [0,255] /\ z11 in [0,255]
  /\ s in [0,255] /\ t in [0,255] -> u in [0,255] /\ v in [0,255] /\ w in [0,255] }
