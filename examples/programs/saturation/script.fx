# A sum of two 16-bit words that is clipped to the range of a word, branch by branch.
s = a + b;
{ @FIX(a,0) /\ @FIX(b,0) /\ a in [-32768,32767] /\ b in [-32768,32767]
  -> not s <= 32767 /\ r in [32767,32767]
  \/ not s >= -32768 /\ r in [-32768,-32768]
  \/ s in [-32768,32767] /\ s - r in [0,0]
  -> r in ? /\ s - r in ? }
