# A butterfly of a radix-2 transform in Q15, halved. Do 32 bits hold the products and sums, 16
# bits the results, and how far are these from exact arithmetic?
@q = fixed<-15,dn>;
pr = wr * br - wi * bi;
pi = wr * bi + wi * br;
tr = q(pr);
ti = q(pi);
xr = q((ar + tr) * 1b-1);
xi = q((ai + ti) * 1b-1);
yr = q((ar - tr) * 1b-1);
yi = q((ai - ti) * 1b-1);
{ @FIX(ar,-15) /\ @FIX(ai,-15) /\ @FIX(br,-15) /\ @FIX(bi,-15) /\ @FIX(wr,-15) /\ @FIX(wi,-15)
  /\ ar in [-0.5,0.5] /\ ai in [-0.5,0.5] /\ br in [-0.5,0.5] /\ bi in [-0.5,0.5]
  /\ wr in [-32767b-15,32767b-15] /\ wi in [-32767b-15,32767b-15]
  -> wr * br in [-2,0x7fffffffp-30] /\ wi * bi in [-2,0x7fffffffp-30]
  /\ wr * bi in [-2,0x7fffffffp-30] /\ wi * br in [-2,0x7fffffffp-30]
  /\ pr in [-2,0x7fffffffp-30] /\ pi in [-2,0x7fffffffp-30] /\ ar + tr in [-1b16,0x7fffffffp-15]
  /\ ai + ti in [-1b16,0x7fffffffp-15] /\ ar - tr in [-1b16,0x7fffffffp-15]
  /\ ai - ti in [-1b16,0x7fffffffp-15] /\ xr in [-1,32767b-15] /\ xi in [-1,32767b-15]
  /\ yr in [-1,32767b-15] /\ yi in [-1,32767b-15] /\ xr - (ar + pr) * 1b-1 in ?
  /\ xi - (ai + pi) * 1b-1 in ? /\ yr - (ar - pr) * 1b-1 in ? /\ yi - (ai - pi) * 1b-1 in ? }
