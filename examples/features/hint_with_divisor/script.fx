# A divisor in a hint has to be shown not to be 0; here x in [1,2] does.
{ x in [1,2] /\ y in [2,3] -> y / x * x in ? }
y / x * x -> y;
