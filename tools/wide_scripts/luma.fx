# Luma from RGB by weights in 8 bits.
@q = int<ne>;
y = q((77 * r + 150 * g + 29 * b) / 256);
{ r in [0,255] /\ g in [0,255] /\ b in [0,255]
  -> y in ? /\ y - (0.299 * r + 0.587 * g + 0.114 * b) in ? }
