# scalar Kalman step in Q24 (flight-control code): k = P / (P + R), x' = x + k (z - x), P' = (1 -
# k) P, each truncated; exact K and P'
k = fixed<-24,dn>(p / (p + r));
x2 = x + fixed<-16,dn>(k * (z - x));
p2 = fixed<-24,dn>((1 - k) * p);
K = p / (p + r);
X2 = x + K * (z - x);
P2 = p * r / (p + r);
{ @FIX(p,-24) /\ @FIX(r,-24) /\ p in [1b-8,4] /\ r in [1b-6,1] /\ @FIX(x,-16) /\ @FIX(z,-16) /\ x in
  [-100,100] /\ z - x in [-5,5]
  -> k in [0,1] /\ k - K in ? /\ x2 - X2 in ? /\ p2 in [0,1] /\ p2 - P2 in ? }
