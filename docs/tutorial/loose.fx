{ x in [2,3] /\ y in [3,5] -> x * y in ? }
