# libfixmath fix16_sin with FIXMATH_FAST_SIN: sq = x * x; ((-13 * sq + 546) * sq - 10923) * sq +
# 65536, times x; fix16_mul rounds to nearest
@m = fixed<-16,na>;
sq = m(x * x);
p = m(m(m(-13b-16 * sq) * 1 + 546b-16) * sq) - 10923b-16;
s = m((m(p * sq) + 1) * x);
SQ = x * x;
S = (((-13b-16 * SQ + 546b-16) * SQ - 10923b-16) * SQ + 1) * x;
{ @FIX(x,-16) /\ x in [-1.5707,1.5707] -> s - S in ? /\ s in [-1.001,1.001] }
$ x in 32;
