# libmad fixed.h mad_f_mul (default): ((x + 2^11) >> 12) * ((y + 2^15) >> 16) in Q28, in two
# levels of synth.c's dct32
m0 = fixed<-16,nu>(x0 - x3) * fixed<-12,nu>(c0);
m1 = fixed<-16,nu>(x1 - x2) * fixed<-12,nu>(c1);
t0 = x0 + x3; t1 = x1 + x2;
u0 = t0 + t1;
u1 = fixed<-16,nu>(t0 - t1) * fixed<-12,nu>(c2);
u2 = m0 + m1;
u3 = fixed<-16,nu>(m0 - m1) * fixed<-12,nu>(c2);
U1 = ((x0 + x3) - (x1 + x2)) * c2;
U2 = (x0 - x3) * c0 + (x1 - x2) * c1;
U3 = ((x0 - x3) * c0 - (x1 - x2) * c1) * c2;
{ @FIX(x0,-28) /\ @FIX(x1,-28) /\ @FIX(x2,-28) /\ @FIX(x3,-28) /\ x0 in [-1,1] /\ x1 in [-1,1] /\ x2
  in [-1,1] /\ x3 in [-1,1]
  /\ @FIX(c0,-28) /\ @FIX(c1,-28) /\ @FIX(c2,-28) /\ c0 in [0.923,0.924] /\ c1 in [0.382,0.383] /\
    c2 in [0.707,0.708]
  -> u0 in [-8,7.99] /\ u1 - U1 in ? /\ u2 - U2 in ? /\ u3 - U3 in ? }
