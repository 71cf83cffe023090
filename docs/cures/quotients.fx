@q = fixed<-15,dn>;
{ x in [0,100] -> q(x) / 3 - x / 3 in ? }
q(x) / 3 - x / 3 -> (q(x) - x) / 3;
