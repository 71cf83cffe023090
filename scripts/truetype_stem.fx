# TrueType hinting (FreeType ttinterp.c): 26.6 points are scaled by FT_MulFix and
# Round_To_Grid'ed; the stem's width before and after
p1 = fixed<-6,na>(u1 * s);
p2 = fixed<-6,na>(u2 * s);
g1 = fixed<0,dn>(p1 + 0.5);
g2 = g1 + fixed<0,dn>(p2 - p1 + 0.5);
{ @FIX(u1,0) /\ @FIX(u2,0) /\ u1 in [0,2048] /\ u2 - u1 in [40,200] /\ @FIX(s,-22) /\ s in
  [0.005,0.01]
  -> g1 - u1 * s in ? /\ (g2 - g1) - (u2 - u1) * s in ? /\ g2 - u2 * s in ? }
