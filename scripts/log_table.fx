# log by table (audio level meters, CRlibm's first step): m in [1,2), c about 1/m from a table, z
# = c m - 1 exact, log = l + z (1 - z / 2 + z^2 / 3) in Q30
@q = fixed<-30,dn>;
z = c * m - 1;
zr = q(z);
y = l + q(zr * q(1 - q(zr * q(0.5 - q(zr * 357913941b-30)))));
Y = L + z * (1 - z * (0.5 - z * 357913941b-30));
{ @FIX(m,-30) /\ m in [1,2] /\ @FIX(c,-8) /\ c in [0.5,1] /\ c * m - 1 in [-1b-7,1b-7] /\
  @FIX(l,-30) /\ l in [0,0.7] /\ l - L in [-1b-31,1b-31]
  -> z in ? /\ y in ? /\ y - Y in ? }
