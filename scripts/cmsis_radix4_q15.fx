# CMSIS-DSP arm_radix4_butterfly_q15, first stage, third output: inputs >> 2, sums, halving add
# for the first output, then (C2 * R.re + S2 * R.im) >> 16
@h = fixed<-15,dn>;
@o = fixed<-15,dn>;
ar = h(xar / 4); br = h(xbr / 4); cr = h(xcr / 4); dr = h(xdr / 4);
ai = h(xai / 4); bi = h(xbi / 4); ci = h(xci / 4); di = h(xdi / 4);
tr = (ar + cr) - (br + dr);
ti = (ai + ci) - (bi + di);
y0 = o(((ar + cr) + (br + dr)) / 2);
yr = o((C * tr + S * ti) / 2);
Y0 = (xar + xbr + xcr + xdr) / 8;
Yr = (C * (xar - xbr + xcr - xdr) + S * (xai - xbi + xci - xdi)) / 8;
{ @FIX(xar,-15) /\ @FIX(xbr,-15) /\ @FIX(xcr,-15) /\ @FIX(xdr,-15) /\ @FIX(xai,-15) /\ @FIX(xbi,-15)
  /\ @FIX(xci,-15) /\ @FIX(xdi,-15)
  /\ @FIX(C,-15) /\ @FIX(S,-15) /\ C in [-1,1] /\ S in [-1,1]
  /\ xar in [-1,1] /\ xbr in [-1,1] /\ xcr in [-1,1] /\ xdr in [-1,1] /\ xai in [-1,1] /\ xbi in
    [-1,1] /\ xci in [-1,1] /\ xdi in [-1,1]
  -> tr in ? /\ y0 in [-1,1] /\ y0 - Y0 in ? /\ yr - Yr in ? }
