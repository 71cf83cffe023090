# libfixmath fix16_exp for 0 <= x <= 1: term = fix16_mul(term, fix16_div(x, i)), result += term;
# both round to nearest, ties away; five terms
@m = fixed<-16,na>;
t2 = m(x * m(x / 2));
t3 = m(t2 * m(x / 3));
t4 = m(t3 * m(x / 4));
t5 = m(t4 * m(x / 5));
e = 1 + x + t2 + t3 + t4 + t5;
E = 1 + x + x * (x / 2) + x * (x / 2) * (x / 3) + x * (x / 2) * (x / 3) * (x / 4) + x * (x / 2) * (x
  / 3) * (x / 4) * (x / 5);
{ @FIX(x,-16) /\ x in [0,1] -> e in ? /\ e - E in ? /\ e -/ E in ? }
