# Linux kernel/sched/pelt.c decay_load and accumulate_sum, one period: (val * y) >> 32 with y =
# 0xfa83b2da / 2^32 = 4202935002b-32 (32nd root of 1/2); sum stays below LOAD_AVG_MAX 47742
d = int<dn>(val * 4202935002b-32);
n = d + c;
N = val * 0.978572062087700 + c;
{ @FIX(val,0) /\ val in [0,47742] /\ @FIX(c,0) /\ c in [0,1023] -> n in [0,47742] /\ n - N in ? /\ n
  - val in ? }
