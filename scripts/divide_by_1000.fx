# compilers' unsigned division by 1000 (multiply-high by 274877907, shift by 6) and the remainder,
# n up to 10^6
q = int<dn>(n * 274877907b-38);
r = n - 1000 * q;
{ @FIX(n,0) /\ n in [0,1000000] -> q in [0,1000] /\ q - n / 1000 in ? /\ r in [-1,1000] /\ r in ? }
