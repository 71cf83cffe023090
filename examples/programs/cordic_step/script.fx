# One rotation of a CORDIC in 24 fraction bits: shifts are truncated. Do 32 bits hold both
# results, and how far are they from an exact rotation by the same factors?
@sh = fixed<-24,dn>;
xs = sh(x * 1b-3);
ys = sh(y * 1b-3);
x1 = x - ys;
y1 = y + xs;
{ @FIX(x,-24) /\ @FIX(y,-24) /\ x in [-2,2] /\ y in [-2,2]
  -> x1 in [-128,0x7fffffffp-24] /\ y1 in [-128,0x7fffffffp-24] /\ x1 - (x - y * 1b-3) in ?
  /\ y1 - (y + x * 1b-3) in ? }
