# Four products of 16-bit samples and 12-bit coefficients. How wide must the accumulator be? The
# goals after the first: 30 bits with a sign hold each product and each partial sum.
p0 = s0 * c0;
p1 = s1 * c1;
p2 = s2 * c2;
p3 = s3 * c3;
sum = p0 + p1 + p2 + p3;
{ @FIX(s0,0) /\ @FIX(c0,0) /\ @FIX(s1,0) /\ @FIX(c1,0)
  /\ @FIX(s2,0) /\ @FIX(c2,0) /\ @FIX(s3,0) /\ @FIX(c3,0)
  /\ s0 in [-32768,32767] /\ c0 in [-2048,2047] /\ s1 in [-32768,32767] /\ c1 in [-2048,2047]
  /\ s2 in [-32768,32767] /\ c2 in [-2048,2047] /\ s3 in [-32768,32767] /\ c3 in [-2048,2047]
  -> sum in ? /\ p0 in [-536870912,536870911] /\ p1 in [-536870912,536870911]
  /\ p2 in [-536870912,536870911] /\ p3 in [-536870912,536870911]
  /\ p0 + p1 in [-536870912,536870911] /\ p0 + p1 + p2 in [-536870912,536870911]
  /\ sum in [-536870912,536870911] }
