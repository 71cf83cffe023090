# CMSIS-DSP arm_sqrt_q15, one of its Newton steps for 1/sqrt(x) (v in Q14, products >> 15, the
# result << 2 so that its unit is 2^-12) and the last product x * v >> 14; R = 1/sqrt(x)
x = 1 / (R * R);
half = fixed<-15,dn>(x / 2);
s = fixed<-13,dn>(v * v);
p = fixed<-13,dn>(s * half);
w = fixed<-12,dn>(v * (1.5 - p));
N = v * (1.5 - v * v * (x / 2));
{ @FIX(x,-15) /\ R in [1,2] /\ @FIX(v,-14) /\ v in [0.9,2.1] /\ v - R in [-1b-5,1b-5]
  -> w - N in ? /\ w - R in ? }
N - R -> -(v - R) * (v - R) * (v + 2 * R) / (2 * R * R) { R <> 0 };
w ~ N;
