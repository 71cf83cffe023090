"""The eleven directions of rounding, exact on fractions and on grid numbers.

docs/FORMATS.md, "What a script says"; docs/RULES.md, the rules 41 to 44 and "Notes", "Exponents".
"""

from __future__ import annotations

from fractions import Fraction
from typing import Optional, Tuple

from .grid import SHIFT, Interval, down

# A rounding is its direction and its lsb.
Rounding = Tuple[str, int]

DIRECTIONS = ["zr", "aw", "dn", "up", "od", "ne", "no", "nz", "na", "nd", "nu"]
NEAREST = {"ne", "no", "nz", "na", "nd", "nu"}


def whole(direction: str, n: int, d: int) -> int:
    """The whole number that the direction gives for s = n / d, with d > 0."""
    floor = n // d
    rest = n - floor * d
    if rest == 0:
        return floor
    ceiling = floor + 1
    if direction == "dn":
        return floor
    if direction == "up":
        return ceiling
    if direction == "zr":
        return floor if n > 0 else ceiling
    if direction == "aw":
        return ceiling if n > 0 else floor
    if direction == "od":
        return floor if floor % 2 else ceiling
    if 2 * rest < d:
        return floor
    if 2 * rest > d:
        return ceiling
    if direction == "ne":
        return ceiling if floor % 2 else floor
    if direction == "no":
        return floor if floor % 2 else ceiling
    if direction == "nz":
        return floor if n > 0 else ceiling
    if direction == "na":
        return ceiling if n > 0 else floor
    if direction == "nd":
        return floor
    return ceiling


def round_fraction(direction: str, lsb: int, q: Fraction) -> Fraction:
    """2^lsb times the whole number for q / 2^lsb."""
    unit = Fraction(2) ** lsb
    s = q / unit
    return whole(direction, s.numerator, s.denominator) * unit


def round_grid(direction: str, lsb: int, x: int) -> int:
    """The exact rounding of a scaled grid number."""
    s = lsb + SHIFT
    return whole(direction, x, 1 << s) << s


def outward(lo: int, hi: int, denominator_shift: int) -> Interval:
    """The outward interval of [lo, hi], both scaled by 2^(512 + denominator_shift)."""
    return (down(lo >> denominator_shift), -down(-hi >> denominator_shift))


def error_any(direction: str, lsb: int) -> Interval:
    """Row 42's interval E of a rounding's error."""
    s = lsb + SHIFT
    # one more binary place holds the half of the least lsb
    ulp = 1 << (s + 1)
    half = 1 << s
    if direction == "dn":
        lo, hi = -ulp, 0
    elif direction == "up":
        lo, hi = 0, ulp
    elif direction in NEAREST:
        lo, hi = -half, half
    else:
        lo, hi = -ulp, ulp
    return outward(lo, hi, 1)


def error_signed(direction: str, lsb: int, i: Interval) -> Optional[Interval]:
    """Rule 43 for zr and aw, or None."""
    ulp = 1 << (lsb + SHIFT)
    above = i[0] >= 0
    below = i[1] <= 0
    if above and below:
        return (0, 0)
    if above:
        return (-ulp, 0) if direction == "zr" else (0, ulp)
    if below:
        return (0, ulp) if direction == "zr" else (-ulp, 0)
    return None


def error_fixed(direction: str, lsb: int, k: int) -> Interval:
    """Row 44's interval for FIX(x, k)."""
    if k >= lsb:
        return (0, 0)
    if direction in NEAREST:
        return error_any(direction, lsb)
    # 2^-1024 is the finest multiple
    extra = 512
    size = (1 << (lsb + SHIFT + extra)) - (1 << (k + SHIFT + extra))
    if direction == "dn":
        lo, hi = -size, 0
    elif direction == "up":
        lo, hi = 0, size
    else:
        lo, hi = -size, size
    return outward(lo, hi, extra)
