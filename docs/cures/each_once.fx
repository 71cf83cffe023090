{ a in [1,2] /\ b in [1,2] -> a / (a + b) in ? }
a / (a + b) -> 1 / (1 + b / a);
