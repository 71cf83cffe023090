"""Literals: spellings, limits, values and normal form: docs/FORMATS.md, "Tokens".

A literal's normal form is (number, two, ten) for number * 2^two * 10^ten: with two or ten 0, and
the number without factors that its exponent could take.
"""

from __future__ import annotations

import re
import sys
from fractions import Fraction
from typing import Optional, Tuple, Union

Literal = Tuple[int, int, int]
# Newer releases of Python read no more than 4,300 digits otherwise.
if hasattr(sys, "set_int_max_str_digits"):
    sys.set_int_max_str_digits(0)

PATTERN = re.compile(
    r"0x[0-9a-fA-F]+(?:\.[0-9a-fA-F]+)?(?:p[+-]?[0-9]+)?"
    r"|[0-9]+b[+-]?[0-9]+"
    r"|[0-9]+(?:\.[0-9]+)?(?:e[+-]?[0-9]+)?"
)

# Values far beyond every literal within the limits.
HUGE = Fraction(1 << 4000)
TINY = Fraction(1, 1 << 4000)


def _whole(text: str) -> int:
    """A signed exponent, cut off at a size that no comparison can tell apart."""
    negative = text.startswith("-")
    digits = text.lstrip("+-").lstrip("0") or "0"
    value = int(digits) if len(digits) <= 12 else 10 ** 12
    return -value if negative else value


class Raw:
    """A spelled literal before its limits are judged: num * base^exp."""

    def __init__(self, text: str) -> None:
        """Takes a literal's spelling apart, and judges its limits."""
        if text.startswith("0x"):
            self.kind = "hex"
            body, _, exp = text[2:].partition("p")
            front, _, back = body.partition(".")
            digits = (front + back).lstrip("0")
            self.num = int(digits or "0", 16)
            self.exp = (_whole(exp) if exp else 0) - 4 * len(back)
            self.base = 2
            self.fits = len(digits) <= 25 and -512 <= self.exp <= 512
        elif "b" in text:
            self.kind = "bin"
            front, _, exp = text.partition("b")
            self.num = int(front)
            self.exp = _whole(exp)
            self.base = 2
            # Every written digit counts here: only the rows of the other two
            # forms leave leading zeros out.
            self.fits = len(front) <= 30 and -512 <= self.exp <= 512
        else:
            self.kind = "dec"
            body, _, exp = text.partition("e")
            front, _, back = body.partition(".")
            digits = (front + back).lstrip("0")
            self.num = int(digits or "0")
            self.exp = (_whole(exp) if exp else 0) - len(back)
            self.base = 10
            self.fits = len(digits) <= 30 and -30 <= self.exp <= 8

    def value(self) -> Fraction:
        """The value; one far past the limits may be replaced by HUGE or TINY."""
        if self.num == 0:
            return Fraction(0)
        bits = self.num.bit_length()
        size = bits + self.exp * (1 if self.base == 2 else 3.32193)
        if size > 3900:
            return HUGE
        if size < -3900:
            return TINY
        if self.exp >= 0:
            return Fraction(self.num * self.base ** self.exp)
        return Fraction(self.num, self.base ** -self.exp)

    def normal(self) -> Literal:
        """The normal form (num, two, ten)."""
        num, exp = self.num, self.exp
        if num == 0:
            return (0, 0, 0)
        while num % self.base == 0:
            num //= self.base
            exp += 1
        return (num, 0, exp) if self.base == 10 else (num, exp, 0)


def read(text: str) -> Union[Literal, str]:
    """The normal form of a literal, or the name of its fault."""
    if not PATTERN.fullmatch(text):
        return "BadLiteral"
    raw = Raw(text)
    return raw.normal() if raw.fits else "LiteralLimit"


def value(lit: Literal) -> Fraction:
    """The fraction for which (num, two, ten) stands."""
    num, two, ten = lit
    q = Fraction(num)
    q *= Fraction(2) ** two
    q *= Fraction(10) ** ten
    return q


def fix_of(lit: Literal) -> Optional[int]:
    """The greatest k up to 512 with the value a multiple of 2^k; None below -1024."""
    q = value(lit)
    if q == 0:
        return 512
    d = q.denominator
    if d & (d - 1):
        return None
    n = q.numerator
    k = (n & -n).bit_length() - 1 - (d.bit_length() - 1)
    if k < -1024:
        return None
    return min(k, 512)


def is_normal(lit: Literal) -> bool:
    """Whether this is the normal form of a literal within the limits."""
    num, two, ten = lit
    if num == 0:
        return two == 0 and ten == 0
    if num < 0:
        return False
    if two == 0 and num % 10 and num < 10 ** 30:
        spare = 30 - len(str(num))
        if -30 <= ten <= 8 + spare:
            return True
    if ten == 0 and num % 2:
        # num * 2^j is written with the exponent two - j, for some j >= 0
        j = max(0, two - 512)
        if two >= -512:
            if num << j < 10 ** 30 or num << j < 1 << 100:
                return True
    return False
