{ x - y in [0,1b-8] /\ x in [1,2] -> y - x in [-1b-8,0] }
