# The size of a sample times a gain, beside a wanted level; the sample and the gain have errors.
y = fixed<-16,dn>(x * g);
e = l - |y|;
Y = X * G;
E = l - |Y|;
{ x in [-1,1] /\ g in [0.25,4] /\ l in [0.4,0.5]
  /\ x - X in [-1b-14,1b-14] /\ g - G in [-1b-10,1b-10] -> e - E in [-0.00125,0.00125] }
