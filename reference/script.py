"""What a text of a script spells: its propositions, hints, cases and facts.

docs/FORMATS.md, "What a script says" and "What is answered".
"""

from __future__ import annotations

from fractions import Fraction
from typing import List, Optional

from .dag import Dag
from .facts import Fact, Slot, Value
from .grid import HIGH, LOW, ONE, Interval, down_fraction, finite, up_fraction
from .literal import Raw
from .tokens import Token


class Bound:
    """A signed literal as written."""

    def __init__(self, negative: bool, raw: Raw, first: Token, text: str) -> None:
        """Its sign, its literal, its first token and its text."""
        self.negative, self.raw, self.first, self.text = negative, raw, first, text
        v = raw.value()
        self.value = -v if negative else v


class Proposition:
    """A claim as it is written."""

    def __init__(self, first: int) -> None:
        """What is to be filled in as it is read."""
        self.first = first          # number of the first token
        self.last = first           # number of the last token of the expression part
        self.kind = None            # "in", "rel", "le", "ge" or "fix"
        self.left = self.right = None
        self.ask = False
        self.lower = self.upper = None
        self.k = None
        self.negated = False


class Need:
    """A constraint of a hint: kind is "<>", "<", "<=", ">" or ">="."""

    def __init__(self, kind: str, expr: int, bound: Optional[Bound]) -> None:
        """Its sign, its expression and its bound."""
        self.kind, self.expr = kind, expr
        self.value = bound.value if bound else None

    def slot(self) -> Slot:
        """The slot of the premise that shows it."""
        return ("N", self.expr) if self.kind == "<>" else ("B", self.expr)

    def met(self, value: Value) -> bool:
        """Whether the premise's value shows the constraint."""
        if self.kind == "<>":
            return True
        lo, hi = value
        if self.kind in ("<", "<="):
            if hi == HIGH:
                return False
            q = Fraction(hi, ONE)
            return q < self.value if self.kind == "<" else q <= self.value
        if lo == LOW:
            return False
        q = Fraction(lo, ONE)
        return q > self.value if self.kind == ">" else q >= self.value

    def holds(self, value: Fraction) -> bool:
        """Whether the constraint holds of an exact value."""
        k = self.kind
        if k == "<>":
            return value != 0
        if k == "<":
            return value < self.value
        if k == "<=":
            return value <= self.value
        if k == ">":
            return value > self.value
        return value >= self.value


class Hint:
    """A rewriting hint."""

    def __init__(self, left: int, right: int, needs: List[Need]) -> None:
        """Both sides and the constraints."""
        self.left, self.right, self.needs = left, right, needs


class Goal:
    """A goal: its slot, what it asks for, and the beginning of its line."""

    def __init__(self, slot: Slot, ask: bool, want: Optional[Interval], text: str) -> None:
        """See the fields."""
        self.slot = slot            # ("B", x) or ("R", x, y)
        self.ask = ask              # whether the goal is `?`
        self.want = want            # inward interval, None where it crosses
        self.text = text            # tokens of the expression part, joined
        self.prop = None


class Split:
    """A cut `$ x ..;`: into so many pieces, or at points."""

    def __init__(self, var: Optional[int], pieces: Optional[int] = None,
                 points: Optional[List[int]] = None) -> None:
        """Its variable, and how it is cut."""
        self.var, self.pieces, self.points = var, pieces, points


class Script:
    """A spelled script, or one of its cases."""

    def __init__(self) -> None:
        """Nothing is read yet."""
        self.dag = Dag()
        self.variables = []         # (name, node) by variable number
        self.parts = []             # hypothesis parts: lists of lists of Proposition
        self.hyps = []              # Proposition, in reading order
        self.goals = []
        self.hints = []
        self.likes = []
        self.apart = []
        self.cuts = []
        self.halves = []
        self.split_order = []       # split variables as hints first name them

    def cases(self) -> int:
        """How many cases there are."""
        n = 1
        for p in self.parts:
            n *= len(p)
        return n

    def case(self, i: int) -> Script:
        """Case i: one conjunction of each part, the first part slowest."""
        s = Script()
        s.__dict__.update(self.__dict__)
        taken = []
        for p in reversed(self.parts):
            i, j = divmod(i, len(p))
            taken.append(p[j])
        taken.reverse()
        s.parts = [[c] for c in taken]
        s.hyps = [h for c in taken for h in c]
        return s

    def split_range(self, var: int) -> Optional[Interval]:
        """The outward interval of the first hypothesis `var in [a,b]` with finite ends."""
        for h in self.hyps:
            if h.kind == "in" and not h.ask and not h.negated and h.left == var:
                i = (down_fraction(h.lower.value), up_fraction(h.upper.value))
                if finite(i):
                    return i
        return None

    def hypothesis_fact(self, h: Proposition) -> Fact:
        """The hypothesis with outward bounds."""
        if h.kind == "fix":
            return (("F", h.left), h.k)
        if h.kind == "le":
            if h.negated:
                return (("B", h.left), (down_fraction(h.upper.value), HIGH))
            return (("B", h.left), (LOW, up_fraction(h.upper.value)))
        if h.kind == "ge":
            if h.negated:
                return (("B", h.left), (LOW, up_fraction(h.lower.value)))
            return (("B", h.left), (down_fraction(h.lower.value), HIGH))
        i = (down_fraction(h.lower.value), up_fraction(h.upper.value))
        if h.kind == "rel":
            return (("R", h.left, h.right), i)
        return (("B", h.left), i)

    def facts(self) -> List[Fact]:
        """The facts of the hypotheses."""
        return [self.hypothesis_fact(h) for h in self.hyps]
