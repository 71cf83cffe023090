{ x in [1,2] /\ y in [-1,1] -> x / y in ? }
