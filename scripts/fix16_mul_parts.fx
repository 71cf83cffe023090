# libfixmath fix16_mul for 32-bit machines: A = a >> 16, B = a & 0xFFFF, C, D likewise; A*C, A*D +
# C*B, B*D put together, + 0x8000, >> 16
A = fixed<16,dn>(a) * 1b-16;
B = a - 1b16 * A;
C = fixed<16,dn>(b) * 1b-16;
D = b - 1b16 * C;
mid = A * D + C * B;
whole = 1b32 * (A * C) + 1b16 * mid + B * D;
r = fixed<0,dn>((whole + 32768) * 1b-16);
{ @FIX(a,0) /\ @FIX(b,0) /\ a in [-1b23,1b23] /\ b in [-1b23,1b23]
  -> A in [-32768,32767] /\ B in [0,65535] /\ mid in [-2147483648,2147483647] /\ whole - a * b in ?
    /\ r - a * b / 65536 in ? }
