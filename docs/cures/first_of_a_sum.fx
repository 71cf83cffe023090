{ a + b in [1,2] /\ b in [0,0.25] -> a in ? }
a -> (a + b) - b;
