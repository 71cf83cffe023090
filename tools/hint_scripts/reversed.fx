@q = fixed<-12,dn>;
y q= x * x;
{ x in [0,1] -> x * x - y in [0,1b-12] }
