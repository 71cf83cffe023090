# three multiplications in a row on normalised numbers, relative error of the result
@q = fixed<-24,dn>;
a = q(x * y);
b = q(a * z);
c = q(b * w);
{ x in [1,2] /\ y in [1,2] /\ z in [1,2] /\ w in [1,2] -> a -/ x * y in ? /\ c -/ x * y * z * w in ?
  }
