{ x -/ y in [-1b-10,1b-10] /\ y in [1,2] -> (x - y) / y in ? }
(x - y) / y -> x / y - 1;
