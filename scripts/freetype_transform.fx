# FreeType ftcalc.c: FT_MulFix rounds to nearest (ties away) in 16.16; FT_Matrix_Multiply then
# FT_Vector_Transform, against the exact double transform
@m = fixed<0,na>;
xx = m(a * c * 1b-16) + m(b * e * 1b-16);
xy = m(a * d * 1b-16) + m(b * f * 1b-16);
X = m(x * xx * 1b-16) + m(y * xy * 1b-16);
EX = x * (a * c + b * e) * 1b-32 + y * (a * d + b * f) * 1b-32;
{ @FIX(a,0) /\ @FIX(b,0) /\ @FIX(c,0) /\ @FIX(d,0) /\ @FIX(e,0) /\ @FIX(f,0) /\ @FIX(x,0) /\
  @FIX(y,0)
  /\ a in [-65536,65536] /\ b in [-65536,65536] /\ c in [-65536,65536] /\ d in [-65536,65536] /\ e
    in [-65536,65536] /\ f in [-65536,65536]
  /\ x in [-131072,131072] /\ y in [-131072,131072]
  -> X in [-2147483648,2147483647] /\ X - EX in ? }
