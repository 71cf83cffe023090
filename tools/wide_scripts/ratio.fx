# The difference over the sum.
{ a in [1,100] /\ b in [1,100] -> (a - b) / (a + b) in ? }
