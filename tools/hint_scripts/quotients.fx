@q = fixed<-12,ne>;
y = q(x) / 3;
{ x in [0,100] -> y - x / 3 in [-1b-14,1b-14] }
