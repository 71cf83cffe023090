"""Exact numbers: literals of scripts, ends of lines, roundings, and decimals on the safe side."""

import re
from decimal import ROUND_CEILING, ROUND_FLOOR, ROUND_HALF_EVEN, Context, Decimal
from fractions import Fraction


class Fault(Exception):
    """What keeps a tool from its work, in one line."""


def value_of(end):
    """What an end of a line stands for, such as 5b-3; None for an infinite one."""
    if end.endswith("inf"):
        return None
    mantissa, _, exponent = end.partition("b")
    return int(mantissa) * Fraction(2) ** int(exponent or 0)


def decimal(exact, digits=6, rounding=ROUND_FLOOR):
    """A fraction in decimals, to so many significant digits."""
    if exact == 0:
        return "0"
    whole = Context(prec=digits + 30, rounding=rounding).divide(
        Decimal(exact.numerator), Decimal(exact.denominator)
    )
    near = Context(prec=digits, rounding=rounding).plus(whole)
    text = format(near, "f") if -5 <= near.adjusted() < digits + 3 else format(near, "e")
    if "." in text and "e" not in text.lower():
        text = text.rstrip("0").rstrip(".")
    return re.sub(r"(\.[0-9]*?)0+e", r"\1e", text).replace(".e", "e")


def near(exact, digits=6):
    """A fraction in decimals for the reader's eye: exact, or `about` before the nearest."""
    text = decimal(exact, digits, ROUND_HALF_EVEN)
    return text if Fraction(text) == exact else "about " + text


def decimals(interval, digits=6):
    """An interval in decimals that holds it: the lower end rounded down, the upper up."""
    if isinstance(interval, str):
        return interval
    low, high = interval
    return "[%s, %s]" % (
        "-inf" if low is None else decimal(low, digits, ROUND_FLOOR),
        "+inf" if high is None else decimal(high, digits, ROUND_CEILING),
    )


def literal_value(text):
    """What a literal stands for."""
    if text.startswith("0x"):
        body, _, exponent = text[2:].partition("p")
        front, _, back = body.partition(".")
        return int(front + back, 16) * Fraction(2) ** (int(exponent or 0) - 4 * len(back))
    base, mark = (2, "b") if "b" in text else (10, "e")
    body, _, exponent = text.partition(mark)
    front, _, back = body.partition(".")
    shift = int(exponent or 0) - len(back)
    if abs(shift) > 5000:
        raise Fault("a literal is past its limits: %s" % text[:40])
    return int(front + back) * Fraction(base) ** shift


def rounded(direction, power, number):
    """The multiple of 2^power that the direction gives for a fraction."""
    unit = Fraction(2) ** power
    scaled = number / unit
    floor = scaled.numerator // scaled.denominator
    rest = scaled - floor
    if rest == 0:
        return number
    up = {"dn": False, "up": True, "zr": number < 0, "aw": number > 0, "od": floor % 2 == 0}.get(
        direction
    )
    if up is None:
        tie = {
            "ne": floor % 2 == 1,
            "no": floor % 2 == 0,
            "nz": number < 0,
            "na": number > 0,
            "nd": False,
            "nu": True,
        }
        up = tie[direction] if rest == Fraction(1, 2) else rest > Fraction(1, 2)
    return (floor + 1 if up else floor) * unit


def literal_of(exact):
    """A literal or a bound of scripts that stands for a fraction exactly: n, nb-k, or a decimal. A
    Fault where there is none: where the denominator has other factors than 2 and 5."""
    n, d = exact.numerator, exact.denominator
    power = d.bit_length() - 1
    if d == 1 << power:
        return "%db-%d" % (n, power) if power else str(n)
    for digits in range(1, 400):
        if 10**digits % d == 0:
            return "%de-%d" % (n * (10**digits // d), digits)
    raise Fault("%s is no number of a script" % exact)
