# A true hint that is too large for the check.
c3 = -178956971b-30;
c5 = 8947849b-30;
Mz = x * x;
Ms = x + x * ((c5 * Mz + c3) * Mz);
T = x - x * Mz / 6 + x * Mz * Mz / 120;
{ x in [0,0.5] -> Ms - T in ? }
Ms - T -> x * Mz * ((c5 - 1 / 120) * Mz + (c3 + 1 / 6));
