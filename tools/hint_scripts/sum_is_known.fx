# Two shares whose sum is known, and one of them.
{ a + b in [0.99,1.01] /\ b in [0.2,0.3] -> a in [0.68,0.82] }
