more = fixed<-30,dn>(1638b-15 * e);
i = fixed<-30,dn>(i0 + more);
share = fixed<-30,dn>(24576b-15 * e);
wide = fixed<-30,dn>(share + i);
u = fixed<-15,dn>(wide);
{ e in [-1, 32767b-15] /\ @FIX(e,-15) /\ i0 in [-1, 1] /\ @FIX(i0,-30) -> more in [-2147483648b-30, 2147483647b-30] /\ i in [-2147483648b-30, 2147483647b-30] /\ share in [-2147483648b-30, 2147483647b-30] /\ wide in [-2147483648b-30, 2147483647b-30] /\ u in [-65536b-15, 65535b-15] /\ i in ? /\ u in ? }
