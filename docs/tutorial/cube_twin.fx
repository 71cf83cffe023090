# A cube with two roundings, as a part of the exact cube.
@q = fixed<-30,dn>;
y = q(q(x * x) * x);
Y = x * x * x;
{ x in [0.5,1] -> y / Y in [0.99,1] }
y ~ Y;
