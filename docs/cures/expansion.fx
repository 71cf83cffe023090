# Two roundings in a row: what the first costs counts by the slope of what follows.
@q = fixed<-15,ne>;
v = q(x * x);
y = q(v * (1 - v));
V = x * x;
Y = V * (1 - V);
{ x in [0.5,1] -> y - Y in ? }
y - Y -> (y - v * (1 - v)) + (v - V) * (1 - v - V);
