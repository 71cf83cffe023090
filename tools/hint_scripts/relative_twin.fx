# The relative error of a rounded product, against the sum of powers.
@q = fixed<-20,ne>;
y = q(x * (x + 1));
{ x in [1,2] -> y -/ (x * x + x) in [-1b-20,1b-20] }
