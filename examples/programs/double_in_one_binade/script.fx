# Between 1 and 2 a double has 52 fraction bits: rounding to nearest is that of fixed<-52,ne>.
# The goals with bounds show that the exact results do lie there. 1.1 is no double: c is what the
# compiler makes of it.
@d = fixed<-52,ne>;
c = 0x1.199999999999ap0;
p d= c * x;
y d= p + 0.5;
exact = 1.1 * x + 0.5;
{ @FIX(x,-52) /\ x in [1,1.25]
  -> c * x in [1,2] /\ p + 0.5 in [1,2]
  /\ y - exact in ? }
y ~ c * x + 0.5;
