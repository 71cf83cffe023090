# CMSIS-DSP arm_clarke_q31 (0x24F34E8B and 0x49E69D16, >> 30) and back by arm_inv_clarke_q31
# (0x40000000, 0x6ED9EBA1, >> 31); the second phase against itself
beta = fixed<-31,dn>(Ia * 619925131b-30) + fixed<-31,dn>(Ib * 1239850262b-30);
ib = fixed<-31,dn>(beta * 1859775393b-31) - fixed<-31,dn>(Ia / 2);
{ @FIX(Ia,-31) /\ @FIX(Ib,-31) /\ Ia in [-0.5,0.5] /\ Ib in [-0.4,0.4] -> beta in
  [-1,2147483647b-31] /\ ib - Ib in ? }
