"""Facts, their slots, which of two is stronger, and what both say together.

docs/FORMATS.md, "What is answered", "Facts". A slot is a tuple: ("B", x) of BND, ("A", x) of ABS,
("R", x, y) of REL, ("F", x) of FIX, ("N", x) of NZR, or ("V",) of VOID. A fact is a slot and its
value: an interval of BND and ABS, an interval or NONE of REL, k of FIX, and True of NZR and VOID.
"""

from __future__ import annotations

from typing import Any, Optional, Tuple, Union

from .grid import Interval, inside
from .grid import meet as meet_intervals

Slot = Tuple[Any, ...]
Relative = Union[Interval, str]
Value = Union[Interval, str, int]
Fact = Tuple[Slot, Value]

NONE = "none"
VOID_SLOT = ("V",)
VOID = (VOID_SLOT, True)


def stronger_value(kind: str, a: Value, b: Value) -> bool:
    """Whether value a is as strong as value b on one slot of this kind."""
    if kind in ("N", "V"):
        return True
    if kind == "F":
        return a >= b
    if kind == "R":
        if a == NONE:
            return True
        if b == NONE:
            return False
    return inside(a, b)


def stronger(f: Fact, g: Fact) -> bool:
    """Whether fact f is stronger than or equal to fact g."""
    if f[0] == VOID_SLOT:
        return True
    if f[0] != g[0]:
        return False
    return stronger_value(f[0][0], f[1], g[1])


def meet_values(kind: str, a: Value, b: Value) -> Union[Value, Fact]:
    """The meet on one slot; VOID where two BND or ABS intervals are disjoint."""
    if kind in ("N", "V"):
        return a
    if kind == "F":
        return max(a, b)
    if kind == "R":
        if a == NONE or b == NONE:
            return NONE
        m = meet_intervals(a, b)
        return NONE if m is None else m
    m = meet_intervals(a, b)
    return VOID if m is None else m


def meet(f: Fact, g: Fact) -> Optional[Fact]:
    """The meet of two facts, or None where the slots differ and none is VOID."""
    if f[0] == VOID_SLOT or g[0] == VOID_SLOT:
        return VOID
    if f[0] != g[0]:
        return None
    v = meet_values(f[0][0], f[1], g[1])
    return VOID if v is VOID else (f[0], v)
