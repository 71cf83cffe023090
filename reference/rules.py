"""The list of rules: docs/RULES.md, "Notes", "The list"."""

from __future__ import annotations

from typing import List, Optional, Sequence

from . import rule_shapes, rule_values
from .dag import Node
from .facts import VOID, VOID_SLOT, Fact, Slot
from .rule_shapes import Shape, View
from .rule_values import VOIDED
from .script import Need

NUMBERS = [n for n in range(1, 93) if hasattr(rule_values, "value_%d" % n)]
VALUE = {n: getattr(rule_values, "value_%d" % n) for n in NUMBERS}
SHAPE = {n: getattr(rule_shapes, "shape_%d" % n) for n in NUMBERS}


class HintRow:
    """What rule 80 has of a hint `a -> b`."""

    def __init__(self, left: int, right: int, divisors: List[int], needs: List[Need]) -> None:
        """Both sides, the divisors and the constraints."""
        self.left, self.right, self.divisors, self.needs = left, right, divisors, needs


def conclude(dag: Sequence[Node], hints: Sequence[HintRow], number: int, arg: int,
             premises: Sequence[Fact], target: Slot) -> Optional[Fact]:
    """The fact that the rule concludes on the target, VOID, or None."""
    if number not in SHAPE:
        return None
    if number == 80:
        if arg >= len(hints):
            return None
        more = (hints[arg],)
    elif arg != 0:
        return None
    else:
        more = ()
    slots = tuple(f[0] for f in premises)
    try:
        for s in slots + (target,):
            for i in s[1:]:
                if i >= len(dag):
                    return None
        c = SHAPE[number](View(dag), slots, target, *more)
    except Shape:
        return None
    v = VALUE[number](c, *(f[1] for f in premises))
    if v is None:
        return None
    if v == VOIDED:
        return VOID
    if target == VOID_SLOT:
        return None
    return (target, v)
