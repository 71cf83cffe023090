# A division by 1000 as a product and a shift. What is left, in whole numbers, is at most 4 below 0.
r = int<dn>(n * 8389 * 1b-23);
{ @FIX(n,0) /\ n in [0,99999] -> r - n / 1000 in [-1,0.0041] }
