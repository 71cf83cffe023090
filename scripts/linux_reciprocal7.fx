# Linux lib/math/reciprocal_div.c, reciprocal_divide by 7: m = 613566757, sh1 = 1, sh2 = 2; t = a
# * m >> 32, q = (t + ((a - t) >> 1)) >> 2
t = int<dn>(a * 613566757b-32);
q = int<dn>((t + int<dn>((a - t) / 2)) / 4);
{ @FIX(a,0) /\ a in [0,65535] -> q in ? /\ q - a / 7 in ? /\ a - 7 * q in [-1,14] }
