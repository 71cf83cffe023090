# Halved three times only, the product isn't settled everywhere; the answer names the first box.
{ x in [0,1] -> x * (1 - x) in [0,0.3] }
x * (1 - x) $ x;
