# The program can't know what y is; the hint says so and is taken on trust. The answer names it.
{ x in [0,1] -> y in ? }
y -> x + 1;
