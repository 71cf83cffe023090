# A square in Q15 whose factor is itself rounded. Do 32 bits hold the product, and how far is its
# rounding from it?
@q = fixed<-15,dn>;
x = q(xx);
y q= x * x;
My = x * x;
{ @FIX(xx,-30) /\ xx in [0,1]
  -> x * x in [-2,0x7fffffffp-30] /\ y - My in ? }
