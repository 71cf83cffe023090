# Linux kernel/sched/loadavg.c calc_load: new = load * exp + active * (2048 - exp), + 2047 where
# active >= load, / 2048; it never leaves [0, M]
E = 1884;
up = int<dn>((load * E + active * (2048 - E) + 2047) / 2048);
lo = int<dn>((load * E + active * (2048 - E)) / 2048);
N = (load * 1884 + active * 164) / 2048;
{ @FIX(load,0) /\ @FIX(active,0) /\ load in [0,1b22] /\ active in [0,1b22] -> lo in [0,1b22] /\ up
  in [0,1b22] /\ up - N in ? /\ lo - N in ? }
