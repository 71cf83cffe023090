# One step of a biquad in direct form I with Q14 coefficients. The state is known to stay within
# [-1, 1] by other means; the sum is exact in Q29, and is rounded to Q15 once. The first eight
# goals: 32 bits hold each product, each partial sum, and the sum with its half unit.
@out = fixed<-15,nu>;
p0 = 4799b-14 * x0;
p1 = 9598b-14 * x1;
p2 = 4799b-14 * x2;
p3 = 2811b-14 * y2;
s1 = p0 + p1;
s2 = s1 + p2;
sum = s2 - p3;
y = out(sum);
{ @FIX(x0,-15) /\ @FIX(x1,-15) /\ @FIX(x2,-15) /\ @FIX(y2,-15)
  /\ x0 in [-1,1] /\ x1 in [-1,1] /\ x2 in [-1,1] /\ y2 in [-1,1]
  -> p0 in [-4,0x7fffffffp-29] /\ p1 in [-4,0x7fffffffp-29] /\ p2 in [-4,0x7fffffffp-29]
  /\ p3 in [-4,0x7fffffffp-29] /\ s1 in [-4,0x7fffffffp-29] /\ s2 in [-4,0x7fffffffp-29]
  /\ sum in [-4,0x7fffffffp-29] /\ sum + 1b-16 in [-4,0x7fffffffp-29] /\ y in ? /\ y - sum in ? }
