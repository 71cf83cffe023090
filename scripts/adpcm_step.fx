# IMA ADPCM difference: step >> 3 plus selected shifts, bits as 0/1 integers
@h = int<dn>;
d = h(s * 1b-3) + b0 * h(s * 1b-2) + b1 * h(s * 1b-1) + b2 * s;
D = (0.125 + b0 * 0.25 + b1 * 0.5 + b2) * s;
{ @FIX(s,0) /\ s in [7,32767] /\ @FIX(b0,0) /\ b0 in [0,1] /\ @FIX(b1,0) /\ b1 in [0,1] /\
  @FIX(b2,0) /\ b2 in [0,1] ->
  d in [0,65535] /\ d - D in ? }
D -> s * 1b-3 + b0 * (s * 1b-2) + b1 * (s * 1b-1) + b2 * s;
d ~ s * 1b-3 + b0 * (s * 1b-2) + b1 * (s * 1b-1) + b2 * s;
d - D -> (d - (s * 1b-3 + b0 * (s * 1b-2) + b1 * (s * 1b-1) + b2 * s));
