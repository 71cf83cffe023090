# the sine for small x
x2 = x * x;
s = x * (1 - x2 / 6 * (1 - x2 / 20));
{ x in [0,0.5] -> s in ? }
