{ x in [1,2] /\ x -/ y in [-0.5,0.5] -> y in ? }
y ~ x;
