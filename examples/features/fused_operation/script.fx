# A multiply and add that rounds once, beside one that rounds twice.
@q = fixed<-15,ne>;
once = q(fma(a, b, c));
twice = q(q(a * b) + c);
{ a in [-1,1] /\ b in [-1,1] /\ c in [-1,1]
  -> once - (a * b + c) in ? /\ twice - (a * b + c) in ? }
