"""The values that rules give: one function for each rule of docs/RULES.md.

`value_N(c, ..)` is the conclusion's value by the premises' values. c is what the rule reads off
the nodes: a literal, a rounding's direction and lsb, the constraints of a hint; else None. A
value is None if the rule gives nothing, and VOIDED if it gives VOID.
"""

from __future__ import annotations

from typing import Optional, Sequence

from . import literal
from .facts import NONE, Relative, Value
from .grid import (HIGH, LOW, ONE, UNIT, WHOLE, ZERO, Interval, absolute, add, div, down,
                   down_fraction, exponent, has_zero, meet, mul, neg, shrink, sub, up_fraction)
from .rounding import Rounding, error_any, error_fixed, error_signed, round_grid
from .script import Need

VOIDED = "voided"
NOT_NEGATIVE = (0, HIGH)
FIX_LEAST, FIX_MOST = -1024, 512


def clip_abs(i: Interval) -> Optional[Interval]:
    """Each ABS conclusion is met with [0, +inf]."""
    return meet(i, NOT_NEGATIVE)


def clip_rel(i: Interval) -> Optional[Interval]:
    """A REL conclusion is drawn only with its lower end above -1."""
    return i if i[0] > -ONE else None


def clip_fix(k: int) -> Optional[int]:
    """A place above 512 is told as 512; none is below -1024."""
    return None if k < FIX_LEAST else min(k, FIX_MOST)


# -- 1 to 19: BND and ABS


def value_1(c: literal.Literal) -> Optional[Value]:
    """Rule 1: a literal."""
    q = literal.value(c)
    return (down_fraction(q), up_fraction(q))


def value_2(c: None, i: Interval) -> Optional[Value]:
    """Rule 2: a negation."""
    return neg(i)


def value_3(c: None, i: Interval, j: Interval) -> Optional[Value]:
    """Rule 3: a sum."""
    return add(i, j)


def value_4(c: None, i: Interval, j: Interval) -> Optional[Value]:
    """Rule 4: a difference."""
    return sub(i, j)


def value_5(c: None, i: Interval) -> Optional[Value]:
    """Rule 5: a difference with itself."""
    return ZERO


def value_6(c: None, i: Interval, j: Interval) -> Optional[Value]:
    """Rule 6: a product."""
    return mul(i, j)


def value_7(c: None, i: Interval) -> Optional[Value]:
    """Rule 7: a square."""
    return mul(i, i)


def value_8(c: None, i: Interval, j: Interval) -> Optional[Value]:
    """Rule 8: a quotient."""
    return div(i, j)


def value_9(c: None, i: Interval, n: bool) -> Optional[Value]:
    """Rule 9: a quotient by what isn't 0."""
    return WHOLE


def value_10(c: None, n: bool) -> Optional[Value]:
    """Rule 10: a quotient by itself."""
    return UNIT


def value_11(c: None, i: Interval) -> Optional[Value]:
    """Rule 11: the size of a value."""
    return absolute(i)


def value_12(c: None, i: Interval) -> Optional[Value]:
    """Rule 12: a value by its size."""
    return (-i[1], i[1])


def value_13(c: None, i: Interval, a: Interval) -> Optional[Value]:
    """Rule 13: a value by its size and sign."""
    p, q = a
    above = i[0] > -p
    below = i[1] < p
    if above and below:
        return VOIDED
    if above:
        return (p, q)
    if below:
        return (-q, -p)
    return None


def value_14(c: None, i: Interval) -> Optional[Value]:
    """Rule 14: an absolute value."""
    return i


def value_15(c: None, i: Interval) -> Optional[Value]:
    """Rule 15: the size of what stands in bars."""
    if i[1] < 0:
        return VOIDED
    return clip_abs(i)


def value_16(c: None, i: Interval) -> Optional[Value]:
    """Rule 16: the size of a negation."""
    return i


def value_17(c: None, i: Interval, j: Interval) -> Optional[Value]:
    """Rule 17: the size of a product."""
    return clip_abs(mul(i, j))


def value_18(c: None, i: Interval, j: Interval) -> Optional[Value]:
    """Rule 18: the size of a quotient."""
    q = div(i, j)
    return None if q is None else clip_abs(q)


def value_19(c: None, i: Interval, j: Interval) -> Optional[Value]:
    """Rule 19: the size of a sum or difference."""
    p, q = i
    r, s = j
    return (down(max(0, p - s, r - q)), -down(-q - s))


# -- 21 to 44: FIX, NZR, roundings


def value_21(c: literal.Literal) -> Optional[Value]:
    """Rule 21: a literal is a multiple."""
    return literal.fix_of(c)


def value_22(c: None, k: int) -> Optional[Value]:
    """Rule 22: a multiple's negation."""
    return k


def value_23(c: None, k: int, n: int) -> Optional[Value]:
    """Rule 23: a sum or difference of multiples."""
    return min(k, n)


def value_24(c: None, k: int, n: int) -> Optional[Value]:
    """Rule 24: a product of multiples."""
    return clip_fix(k + n)


def value_25(c: Rounding, i: Interval) -> Optional[Value]:
    """Rule 25: a rounding is a multiple."""
    return c[1]


def value_26(c: Rounding, k: int) -> Optional[Value]:
    """Rule 26: a rounding that changes nothing."""
    return k if k >= c[1] else None


def value_27(c: None, i: Interval) -> Optional[Value]:
    """Rule 27: a number's last digit."""
    p, q = i
    if p != q:
        return None
    return FIX_MOST if p == 0 else clip_fix(exponent(p))


def value_28(c: None, i: Interval, k: int) -> Optional[Value]:
    """Rule 28: the multiples in an interval."""
    return shrink(i, k)


def value_31(c: None, i: Interval) -> Optional[Value]:
    """Rule 31: not 0 by its bounds."""
    return None if has_zero(i) else True


def value_32(c: None, i: Interval) -> Optional[Value]:
    """Rule 32: not 0 by its size."""
    return True if i[0] > 0 else None


def value_33(c: None, n: bool, m: bool) -> Optional[Value]:
    """Rule 33: a product of what isn't 0."""
    return True


def value_34(c: None, n: bool, m: bool) -> Optional[Value]:
    """Rule 34: a quotient of what isn't 0."""
    return True


def value_35(c: None, n: bool) -> Optional[Value]:
    """Rule 35: a negation of what isn't 0."""
    return True


def value_36(c: None, r: Relative, n: bool) -> Optional[Value]:
    """Rule 36: not 0 by its relative error."""
    return VOIDED if r == NONE else True


def value_41(c: Rounding, i: Interval) -> Optional[Value]:
    """Rule 41: a rounded value."""
    lo, hi = i
    if lo != LOW:
        lo = round_grid(c[0], c[1], lo)
    if hi != HIGH:
        hi = round_grid(c[0], c[1], hi)
    return (lo, hi)


def value_42(c: Rounding, i: Interval) -> Optional[Value]:
    """Rule 42: a rounding's error."""
    return error_any(c[0], c[1])


def value_43(c: Rounding, i: Interval) -> Optional[Value]:
    """Rule 43: the error by the sign."""
    return error_signed(c[0], c[1], i)


def value_44(c: Rounding, k: int) -> Optional[Value]:
    """Rule 44: the error of a multiple."""
    return error_fixed(c[0], c[1], k)


# -- 51 to 61: REL


def value_51(c: None, i: Interval) -> Optional[Value]:
    """Rule 51: a value with itself."""
    return ZERO


def value_52(c: None, i: Interval, j: Interval) -> Optional[Value]:
    """Rule 52: a difference by the second value."""
    q = div(i, j)
    return None if q is None else clip_rel(q)


def value_53(c: None, r: Relative, j: Interval) -> Optional[Value]:
    """Rule 53: a difference by its relative error."""
    if r == NONE:
        return ZERO if has_zero(j) else VOIDED
    return mul(j, r)


def value_54(c: None, r: Relative, j: Interval) -> Optional[Value]:
    """Rule 54: a value by its relative error."""
    if r == NONE:
        return ZERO if has_zero(j) else VOIDED
    return mul(j, add(UNIT, r))


def value_55(c: None, r: Relative, n: bool) -> Optional[Value]:
    """Rule 55: a quotient by its relative error."""
    return VOIDED if r == NONE else add(UNIT, r)


def _product(i: Interval, k: Interval) -> Optional[Interval]:
    """(I + K) + I * K, of the rules 56 and 58."""
    return clip_rel(add(add(i, k), mul(i, k)))


def value_56(c: None, i: Relative, k: Relative) -> Optional[Value]:
    """Rule 56: relative errors of products."""
    if i == NONE or k == NONE:
        return NONE
    return _product(i, k)


def value_57(c: None, i: Relative, k: Relative, n: bool) -> Optional[Value]:
    """Rule 57: relative errors of quotients."""
    if k == NONE:
        return VOIDED
    if i == NONE:
        return NONE
    q = div(add(UNIT, i), add(UNIT, k))
    return None if q is None else clip_rel(sub(q, UNIT))


def value_58(c: None, i: Relative, k: Relative) -> Optional[Value]:
    """Rule 58: relative errors in a chain."""
    return value_56(c, i, k)


def value_59(c: None, i: Relative) -> Optional[Value]:
    """Rule 59: a relative error turned round."""
    if i == NONE:
        return NONE
    q = div(UNIT, add(UNIT, i))
    return None if q is None else clip_rel(sub(q, UNIT))


def value_60(c: None, i: Relative) -> Optional[Value]:
    """Rule 60: relative errors of negations."""
    return i


def value_61(c: None, i: Relative, k: Relative, share: Interval) -> Optional[Value]:
    """Rule 61: relative errors of sums."""
    if i == NONE and k == NONE:
        return VOIDED
    if i == NONE:
        return k if has_zero(share) else VOIDED
    if k == NONE:
        return i if share[0] <= ONE <= share[1] else VOIDED
    return clip_rel(add(mul(i, share), mul(k, sub(UNIT, share))))


# -- 71 to 92: rewrites and VOID


def value_71(c: None, i: Interval, j: Interval) -> Optional[Value]:
    """Rule 71: a difference of sums."""
    return add(i, j)


def value_72(c: None, i: Interval, j: Interval) -> Optional[Value]:
    """Rule 72: a difference of differences."""
    return sub(i, j)


def value_73(c: None, i: Interval, j: Interval, k: Interval, n: Interval) -> Optional[Value]:
    """Rule 73: a difference of products."""
    return add(mul(i, j), mul(k, n))


def value_74(c: None, i: Interval) -> Optional[Value]:
    """Rule 74: a difference of negations."""
    return neg(i)


def value_75(c: None, i: Interval, j: Interval) -> Optional[Value]:
    """Rule 75: a difference through a third expression."""
    return add(i, j)


def value_76(c: None, i: Interval, j: Interval) -> Optional[Value]:
    """Rule 76: a difference against a third expression."""
    return sub(i, j)


def value_77(c: None, i: Interval, j: Interval) -> Optional[Value]:
    """Rule 77: the first value by a difference."""
    return add(i, j)


def value_78(c: None, i: Interval, j: Interval) -> Optional[Value]:
    """Rule 78: the second value by a difference."""
    return sub(i, j)


def value_80(needs: Sequence[Need], fact: Value, *rest: Value) -> Optional[Value]:
    """Rule 80: a hint `a -> b`."""
    if needs:
        for need, v in zip(needs, rest[len(rest) - len(needs):]):
            if not need.met(v):
                return None
    return fact


def value_90(c: None, i: Interval, k: int) -> Optional[Value]:
    """Rule 90: no multiple is left."""
    return VOIDED if shrink(i, k) is None else None


def value_91(c: None, i: Interval, n: bool) -> Optional[Value]:
    """Rule 91: 0 and not 0."""
    return VOIDED if i == ZERO else None


def value_92(c: None, r: Relative, n: bool) -> Optional[Value]:
    """Rule 92: both 0 and not 0."""
    return VOIDED if r == NONE else None
