# exp2 with a table of 32 entries and a quadratic (audio gain code): y = T * (1 + f * (c1 + c2 *
# f)), T rounded to Q30 (relative 2^-31), product truncated to Q30
@q = fixed<-30,dn>;
p = q(f * q(744261118b-30 + q(f * 257941248b-30)));
y = T + q(T * p);
P = f * (744261118b-30 + f * 257941248b-30);
Y = TT * (1 + P);
{ @FIX(f,-30) /\ f in [0,1b-5] /\ @FIX(T,-30) /\ T in [1,2] /\ T -/ TT in [-1b-31,1b-31] -> y in
  [1,2.05] /\ p - P in ? /\ y - Y in ? /\ y -/ Y in ? }
