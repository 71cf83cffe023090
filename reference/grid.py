"""The number grid, and intervals rounded outward to it.

docs/FORMATS.md, "Numbers"; docs/RULES.md, "Notes", "Intervals". Every grid number is a multiple of
2^-512, and is kept as the whole number x * 2^512 ("scaled"). The infinite ends are the whole
numbers LOW and HIGH, which lie past every grid number, so that ends compare as whole numbers. An
interval is a pair of a lower and an upper end.
"""

from __future__ import annotations

from fractions import Fraction
from typing import Optional, Tuple

Interval = Tuple[int, int]

SHIFT = 512
ONE = 1 << SHIFT
MAX = ((1 << 60) - 1) << (2 * SHIFT)
LOW = -(1 << 1400)
HIGH = 1 << 1400
WHOLE = (LOW, HIGH)
UNIT = (ONE, ONE)
ZERO = (0, 0)


def down(x: int) -> int:
    """The greatest grid number not above the scaled whole number x, or LOW."""
    n = x.bit_length()
    if n <= 60:
        return x
    s = n - 60
    if s > 1024:
        return MAX if x > 0 else LOW
    r = (x >> s) << s
    return LOW if r < -MAX else r


def up(x: int) -> int:
    """The least grid number not below the scaled whole number x, or HIGH."""
    return -down(-x)


def down_ratio(n: int, d: int) -> int:
    """down(n / d) of a fraction with d > 0."""
    return down((n << SHIFT) // d)


def up_ratio(n: int, d: int) -> int:
    """up(n / d) of a fraction with d > 0."""
    return -down((-n << SHIFT) // d)


def down_fraction(q: Fraction) -> int:
    """The greatest grid number that isn't above the fraction, or LOW."""
    return down_ratio(q.numerator, q.denominator)


def up_fraction(q: Fraction) -> int:
    """The least grid number that isn't below the fraction, or HIGH."""
    return up_ratio(q.numerator, q.denominator)


def exponent(x: int) -> int:
    """The canonical exponent of a grid number other than 0."""
    return (x & -x).bit_length() - 1 - SHIFT


def canonical(x: int) -> Tuple[int, int]:
    """Mantissa and exponent of the form in which a grid number is kept."""
    if x == 0:
        return 0, 0
    e = exponent(x)
    return x >> (e + SHIFT), e


def from_parts(m: int, e: int) -> Optional[int]:
    """The grid number with this canonical form, or None."""
    if m == 0:
        return 0 if e == 0 else None
    if m % 2 == 0 or e < -512 or e > 571:
        return None
    if abs(m).bit_length() + max(0, e - 512) > 60:
        return None
    return m << (e + SHIFT)


def on_grid(x: int) -> bool:
    """Whether the scaled whole number is a grid number."""
    return down(x) == x


def show(x: int) -> str:
    """A grid number or an infinite end as printed."""
    if x == LOW:
        return "-inf"
    if x == HIGH:
        return "+inf"
    m, e = canonical(x)
    return str(m) if e == 0 else "%db%d" % (m, e)


def show_interval(i: Interval) -> str:
    """An interval as printed."""
    return "[%s, %s]" % (show(i[0]), show(i[1]))


def middle(a: int, b: int) -> Optional[int]:
    """The point at which [a, b] is halved, or None: "What is answered", "Boxes"."""
    s = a + b
    m = down(s >> 1)
    if a < m < b:
        return m
    m = -down((-s) >> 1)
    if a < m < b:
        return m
    return None


def part_down(a: int, b: int, i: int, n: int) -> int:
    """Point i of a cut in n pieces, down(((n - i) * a + i * b) / n): "Boxes"."""
    return down(((n - i) * a + i * b) // n)


# -- intervals


def finite(i: Interval) -> bool:
    """Whether both ends are numbers."""
    return i[0] != LOW and i[1] != HIGH


def neg(i: Interval) -> Interval:
    """The negated interval."""
    return (-i[1], -i[0])


def absolute(i: Interval) -> Interval:
    """The interval of the absolute values."""
    lo, hi = i
    if lo >= 0:
        return i
    if hi <= 0:
        return (-hi, -lo)
    return (0, max(-lo, hi))


def add(i: Interval, j: Interval) -> Interval:
    """The sum, rounded outward."""
    return (down(i[0] + j[0]), -down(-i[1] - j[1]))


def sub(i: Interval, j: Interval) -> Interval:
    """The difference, rounded outward."""
    return (down(i[0] - j[1]), -down(j[0] - i[1]))


def mul(i: Interval, j: Interval) -> Interval:
    """The product, rounded outward; the whole line if an end is infinite."""
    a, b = i
    c, d = j
    if a == LOW or b == HIGH or c == LOW or d == HIGH:
        return WHOLE
    if a >= 0 and c >= 0:
        lo, hi = a * c, b * d
    else:
        p = (a * c, a * d, b * c, b * d)
        lo, hi = min(p), max(p)
    return (down(lo >> SHIFT), -down(-hi >> SHIFT))


def has_zero(i: Interval) -> bool:
    """Whether 0 lies in the interval."""
    return i[0] <= 0 <= i[1]


def div(i: Interval, j: Interval) -> Optional[Interval]:
    """The quotient, rounded outward, or None if 0 lies in the divisor."""
    a, b = i
    c, d = j
    if c <= 0 <= d:
        return None
    if a == LOW or b == HIGH or c == LOW or d == HIGH:
        return WHOLE
    if c < 0:
        a, b, c, d = -b, -a, -d, -c
    # the divisor is positive now
    lo = (a << SHIFT) // (d if a >= 0 else c)
    hi = (-b << SHIFT) // (c if b >= 0 else d)
    return (down(lo), -down(hi))


def meet(i: Interval, j: Interval) -> Optional[Interval]:
    """What both intervals have, or None."""
    lo = i[0] if i[0] >= j[0] else j[0]
    hi = i[1] if i[1] <= j[1] else j[1]
    return (lo, hi) if lo <= hi else None


def hull(i: Interval, j: Interval) -> Interval:
    """The least interval that holds both."""
    return (min(i[0], j[0]), max(i[1], j[1]))


def inside(i: Interval, j: Interval) -> bool:
    """Whether i lies in j."""
    return i[0] >= j[0] and i[1] <= j[1]


def shrink(i: Interval, k: int) -> Optional[Interval]:
    """The least interval that holds the multiples of 2^k in i, or None."""
    s = k + SHIFT
    if s <= 0:
        return i
    lo, hi = i
    if lo != LOW:
        lo = -(-lo >> s) << s
    if hi != HIGH:
        hi = (hi >> s) << s
    return (lo, hi) if lo <= hi else None
