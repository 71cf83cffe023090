"""The slots that rules take: one function for each rule of docs/RULES.md.

`shape_N(v, p, t)` raises `Shape` if the premises' slots p and the wanted slot t don't fit rule N.
It answers what `value_N` reads off the nodes. A wanted slot of VOID fits each rule that can give
VOID.
"""

from __future__ import annotations

from typing import TYPE_CHECKING, Any, Callable, Sequence, Tuple

from . import literal
from .dag import Node
from .facts import VOID_SLOT, Slot
from .rounding import Rounding
from .script import Need

if TYPE_CHECKING:
    from .rules import HintRow

Slots = Tuple[Slot, ...]


class Shape(Exception):
    """A slot hasn't the rule's shape."""


def _need(truth: bool) -> None:
    """Raises Shape if the truth doesn't hold."""
    if not truth:
        raise Shape


class View:
    """Node access under which a node number outside the list fits no shape."""

    def __init__(self, dag: Sequence[Node]) -> None:
        """Has these nodes."""
        self.dag = dag

    def node(self, i: int) -> Node:
        """Node number i."""
        if i >= len(self.dag):
            raise Shape
        return self.dag[i]

    def parts(self, i: int, tag: str) -> Tuple:
        """What a node of this kind has."""
        n = self.node(i)
        _need(n[0] == tag)
        return n[1:]


def _slot(view: View, s: Slot, kind: str) -> Any:
    """The expression of a slot of this kind, or both."""
    _need(s[0] == kind)
    for i in s[1:]:
        view.node(i)
    return s[1] if len(s) == 2 else s[1:]


def _bnd(view: View, s: Slot) -> int:
    """The expression of a BND slot."""
    return _slot(view, s, "B")


def _unary(tag: str) -> Callable[..., None]:
    """The shape of a rule on an operation of one operand."""
    def fit(v: View, p: Slots, t: Slot, kind: str, premise: str) -> None:
        """Whether it fits."""
        x = _slot(v, t, kind)
        (a,) = v.parts(x, tag)
        _need(p == ((premise, a),))
    return fit


def _binary(v: View, p: Slots, t: Slot, kind: str, premise: str, tags: Tuple[str, ...]) -> None:
    """The shape of a rule on an operation of two operands."""
    n = v.node(_slot(v, t, kind))
    _need(n[0] in tags)
    _need(p == ((premise, n[1]), (premise, n[2])))


def shape_1(v: View, p: Slots, t: Slot) -> literal.Literal:
    """Rule 1: of nothing comes BND(c, [down c, up c])."""
    x = _slot(v, t, "B")
    lit = v.parts(x, "lit")
    _need(p == ())
    return lit


def shape_2(v: View, p: Slots, t: Slot) -> None:
    """Rule 2: of BND(a, I) comes BND(-a, -I)."""
    _unary("neg")(v, p, t, "B", "B")


def shape_3(v: View, p: Slots, t: Slot) -> None:
    """Rule 3: of BND(a, I), BND(b, J) comes BND(a + b, I + J)."""
    _binary(v, p, t, "B", "B", ("add",))


def shape_4(v: View, p: Slots, t: Slot) -> None:
    """Rule 4: of BND(a, I), BND(b, J) comes BND(a - b, I - J)."""
    _binary(v, p, t, "B", "B", ("sub",))


def shape_5(v: View, p: Slots, t: Slot) -> None:
    """Rule 5: of BND(x) comes BND(x - x, [0, 0])."""
    a, b = v.parts(_slot(v, t, "B"), "sub")
    _need(a == b and p == (("B", a),))


def shape_6(v: View, p: Slots, t: Slot) -> None:
    """Rule 6: of BND(a, I), BND(b, J) comes BND(a * b, I * J)."""
    _binary(v, p, t, "B", "B", ("mul",))


def shape_7(v: View, p: Slots, t: Slot) -> None:
    """Rule 7: of ABS(x, I) comes BND(x * x, I * I)."""
    a, b = v.parts(_slot(v, t, "B"), "mul")
    _need(a == b and p == (("A", a),))


def shape_8(v: View, p: Slots, t: Slot) -> None:
    """Rule 8: of BND(a, I), BND(b, J) comes BND(a / b, I / J)."""
    _binary(v, p, t, "B", "B", ("div",))


def shape_9(v: View, p: Slots, t: Slot) -> None:
    """Rule 9: of BND(a), NZR(b) comes BND(a / b, whole line)."""
    a, b = v.parts(_slot(v, t, "B"), "div")
    _need(p == (("B", a), ("N", b)))


def shape_10(v: View, p: Slots, t: Slot) -> None:
    """Rule 10: of NZR(x) comes BND(x / x, [1, 1])."""
    a, b = v.parts(_slot(v, t, "B"), "div")
    _need(a == b and p == (("N", a),))


def shape_11(v: View, p: Slots, t: Slot) -> None:
    """Rule 11: of BND(x, I) comes ABS(x, abs I)."""
    x = _slot(v, t, "A")
    _need(p == (("B", x),))


def shape_12(v: View, p: Slots, t: Slot) -> None:
    """Rule 12: of ABS(x, [p, q]) comes BND(x, [-q, q])."""
    x = _slot(v, t, "B")
    _need(p == (("A", x),))


def shape_13(v: View, p: Slots, t: Slot) -> None:
    """Rule 13: of BND(x, I), ABS(x, [p, q]) comes BND(x, [p, q]); BND(x, [-q, -p]); VOID."""
    _need(len(p) == 2)
    x = _slot(v, p[0], "B")
    _need(p[1] == ("A", x))
    _need(t == VOID_SLOT or t == ("B", x))


def shape_14(v: View, p: Slots, t: Slot) -> None:
    """Rule 14: of ABS(x, I) comes BND(abs x, I)."""
    (x,) = v.parts(_slot(v, t, "B"), "abs")
    _need(p == (("A", x),))


def shape_15(v: View, p: Slots, t: Slot) -> None:
    """Rule 15: of BND(abs x, I) comes ABS(x, I); VOID."""
    _need(len(p) == 1)
    (x,) = v.parts(_slot(v, p[0], "B"), "abs")
    _need(t == VOID_SLOT or t == ("A", x))


def shape_16(v: View, p: Slots, t: Slot) -> None:
    """Rule 16: of ABS(a, I) comes ABS(-a, I)."""
    _unary("neg")(v, p, t, "A", "A")


def shape_17(v: View, p: Slots, t: Slot) -> None:
    """Rule 17: of ABS(a, I), ABS(b, J) comes ABS(a * b, I * J)."""
    _binary(v, p, t, "A", "A", ("mul",))


def shape_18(v: View, p: Slots, t: Slot) -> None:
    """Rule 18: of ABS(a, I), ABS(b, J) comes ABS(a / b, I / J)."""
    _binary(v, p, t, "A", "A", ("div",))


def shape_19(v: View, p: Slots, t: Slot) -> None:
    """Rule 19: of ABS(a, [p, q]), ABS(b, [r, s]) comes ABS of a + b and of a - b, [max(0, p - s,
    r - q), q + s].
    """
    _binary(v, p, t, "A", "A", ("add", "sub"))


def shape_21(v: View, p: Slots, t: Slot) -> literal.Literal:
    """Rule 21: of nothing comes FIX(c, k)."""
    lit = v.parts(_slot(v, t, "F"), "lit")
    _need(p == ())
    return lit


def shape_22(v: View, p: Slots, t: Slot) -> None:
    """Rule 22: of FIX(a, k) comes FIX(-a, k)."""
    _unary("neg")(v, p, t, "F", "F")


def shape_23(v: View, p: Slots, t: Slot) -> None:
    """Rule 23: of FIX(a, k), FIX(b, n) comes FIX of a + b and of a - b, the lesser of k and n."""
    _binary(v, p, t, "F", "F", ("add", "sub"))


def shape_24(v: View, p: Slots, t: Slot) -> None:
    """Rule 24: of FIX(a, k), FIX(b, n) comes FIX(a * b, k + n)."""
    _binary(v, p, t, "F", "F", ("mul",))


def shape_25(v: View, p: Slots, t: Slot) -> Rounding:
    """Rule 25: of BND(x) comes FIX(R(x), l)."""
    d, lsb, x = v.parts(_slot(v, t, "F"), "rnd")
    _need(p == (("B", x),))
    return (d, lsb)


def shape_26(v: View, p: Slots, t: Slot) -> Rounding:
    """Rule 26: of FIX(x, k) comes FIX(R(x), k)."""
    d, lsb, x = v.parts(_slot(v, t, "F"), "rnd")
    _need(p == (("F", x),))
    return (d, lsb)


def shape_27(v: View, p: Slots, t: Slot) -> None:
    """Rule 27: of BND(x, [p, p]) comes FIX(x, k)."""
    x = _slot(v, t, "F")
    _need(p == (("B", x),))


def shape_28(v: View, p: Slots, t: Slot) -> None:
    """Rule 28: of BND(x, I), FIX(x, k) comes BND(x, the least interval that holds the multiples of
    2^k in I).
    """
    x = _slot(v, t, "B")
    _need(p == (("B", x), ("F", x)))


def shape_31(v: View, p: Slots, t: Slot) -> None:
    """Rule 31: of BND(x, I) comes NZR(x)."""
    x = _slot(v, t, "N")
    _need(p == (("B", x),))


def shape_32(v: View, p: Slots, t: Slot) -> None:
    """Rule 32: of ABS(x, [p, q]) comes NZR(x)."""
    x = _slot(v, t, "N")
    _need(p == (("A", x),))


def shape_33(v: View, p: Slots, t: Slot) -> None:
    """Rule 33: of NZR(a), NZR(b) comes NZR(a * b)."""
    _binary(v, p, t, "N", "N", ("mul",))


def shape_34(v: View, p: Slots, t: Slot) -> None:
    """Rule 34: of NZR(a), NZR(b) comes NZR(a / b)."""
    _binary(v, p, t, "N", "N", ("div",))


def shape_35(v: View, p: Slots, t: Slot) -> None:
    """Rule 35: of NZR(a) comes NZR(-a)."""
    _unary("neg")(v, p, t, "N", "N")


def shape_36(v: View, p: Slots, t: Slot) -> None:
    """Rule 36: of REL(x, y, E), NZR of one of x and y comes NZR of the other; VOID."""
    _need(len(p) == 2)
    x, y = _slot(v, p[0], "R")
    n = _slot(v, p[1], "N")
    _need(n in (x, y))
    if t != VOID_SLOT:
        other = _slot(v, t, "N")
        _need((n, other) in ((x, y), (y, x)))


def shape_41(v: View, p: Slots, t: Slot) -> Rounding:
    """Rule 41: of BND(x, [p, q]) comes BND(R(x), [R(p), R(q)]); infinite ends stay."""
    d, lsb, x = v.parts(_slot(v, t, "B"), "rnd")
    _need(p == (("B", x),))
    return (d, lsb)


def _error(v: View, p: Slots, t: Slot, kind: str) -> Tuple[str, int]:
    """The shape of the rows 42 to 44: the rounding."""
    a, b = v.parts(_slot(v, t, "B"), "sub")
    d, lsb, x = v.parts(a, "rnd")
    _need(x == b and p == ((kind, x),))
    return (d, lsb)


def shape_42(v: View, p: Slots, t: Slot) -> Rounding:
    """Rule 42: of BND(x) comes BND(R(x) - x, E)."""
    return _error(v, p, t, "B")


def shape_43(v: View, p: Slots, t: Slot) -> Rounding:
    """Rule 43: of BND(x, I) comes BND(R(x) - x)."""
    c = _error(v, p, t, "B")
    _need(c[0] in ("zr", "aw"))
    return c


def shape_44(v: View, p: Slots, t: Slot) -> Rounding:
    """Rule 44: of FIX(x, k) comes BND(R(x) - x): [0, 0]; that of 42 with 2^l - 2^k for 2^l."""
    return _error(v, p, t, "F")


def shape_51(v: View, p: Slots, t: Slot) -> None:
    """Rule 51: of BND(x) comes REL(x, x, [0, 0])."""
    x, y = _slot(v, t, "R")
    _need(x == y and p == (("B", x),))


def shape_52(v: View, p: Slots, t: Slot) -> None:
    """Rule 52: of BND(x - y, I), BND(y, J) comes REL(x, y, I / J)."""
    x, y = _slot(v, t, "R")
    _need(len(p) == 2)
    _need(v.parts(_slot(v, p[0], "B"), "sub") == (x, y) and p[1] == ("B", y))


def shape_53(v: View, p: Slots, t: Slot) -> None:
    """Rule 53: of REL(x, y, I), BND(y, J) comes BND(x - y, J * I); of none: BND(x - y, [0, 0]),
    VOID.
    """
    _need(len(p) == 2)
    x, y = _slot(v, p[0], "R")
    _need(p[1] == ("B", y))
    if t != VOID_SLOT:
        _need(v.parts(_slot(v, t, "B"), "sub") == (x, y))


def shape_54(v: View, p: Slots, t: Slot) -> None:
    """Rule 54: of REL(x, y, I), BND(y, J) comes BND(x, J * ([1, 1] + I)); of none: BND(x, [0, 0]),
    VOID.
    """
    _need(len(p) == 2)
    x, y = _slot(v, p[0], "R")
    _need(p[1] == ("B", y))
    _need(t == VOID_SLOT or t == ("B", x))


def shape_55(v: View, p: Slots, t: Slot) -> None:
    """Rule 55: of REL(x, y, I), NZR(y) comes BND(x / y, [1, 1] + I); of none: VOID."""
    _need(len(p) == 2)
    x, y = _slot(v, p[0], "R")
    _need(p[1] == ("N", y))
    if t != VOID_SLOT:
        _need(v.parts(_slot(v, t, "B"), "div") == (x, y))


def shape_56(v: View, p: Slots, t: Slot) -> None:
    """Rule 56: of REL(a, c, I), REL(b, d, K) comes REL(a * b, c * d, (I + K) + I * K); none where
    one is none.
    """
    x, y = _slot(v, t, "R")
    a, b = v.parts(x, "mul")
    c, d = v.parts(y, "mul")
    _need(p == (("R", a, c), ("R", b, d)))


def shape_57(v: View, p: Slots, t: Slot) -> None:
    """Rule 57: of REL(a, c, I), REL(b, d, K), NZR(d) comes REL(a / b, c / d, ([1, 1] + I) / ([1, 1]
    + K) - [1, 1]); VOID where the second is none, else none where the first is.
    """
    _need(len(p) == 3)
    a, c = _slot(v, p[0], "R")
    b, d = _slot(v, p[1], "R")
    _need(p[2] == ("N", d))
    if t != VOID_SLOT:
        x, y = _slot(v, t, "R")
        _need(v.parts(x, "div") == (a, b) and v.parts(y, "div") == (c, d))


def shape_58(v: View, p: Slots, t: Slot) -> None:
    """Rule 58: of REL(a, b, I), REL(b, c, K) comes REL(a, c, (I + K) + I * K); none where one is
    none.
    """
    x, y = _slot(v, t, "R")
    _need(len(p) == 2)
    a, b = _slot(v, p[0], "R")
    b2, c = _slot(v, p[1], "R")
    _need(b == b2 and (a, c) == (x, y))


def shape_59(v: View, p: Slots, t: Slot) -> None:
    """Rule 59: of REL(x, y, I) comes REL(y, x, [1, 1] / ([1, 1] + I) - [1, 1]); none of none."""
    y, x = _slot(v, t, "R")
    _need(p == (("R", x, y),))


def shape_60(v: View, p: Slots, t: Slot) -> None:
    """Rule 60: of REL(a, b, I) comes REL(-a, -b, I); none of none."""
    x, y = _slot(v, t, "R")
    (a,) = v.parts(x, "neg")
    (b,) = v.parts(y, "neg")
    _need(p == (("R", a, b),))


def shape_61(v: View, p: Slots, t: Slot) -> None:
    """Rule 61: of REL(a, c, I), REL(b, d, K), BND(c / (c + d), L) comes REL(a + b, c + d, I * L + K
    * ([1, 1] - L)); of none, I: REL with K, VOID; of I, none: REL with I, VOID; of both: VOID.
    """
    _need(len(p) == 3)
    a, c = _slot(v, p[0], "R")
    b, d = _slot(v, p[1], "R")
    n, m = v.parts(_slot(v, p[2], "B"), "div")
    _need(n == c and v.parts(m, "add") == (c, d))
    if t != VOID_SLOT:
        x, y = _slot(v, t, "R")
        _need(v.parts(x, "add") == (a, b) and y == m)


def _pairs(v: View, t: Slot, tag: str) -> Tuple[int, ...]:
    """a, b, c and d of a difference of two such operations."""
    x, y = v.parts(_slot(v, t, "B"), "sub")
    return v.parts(x, tag) + v.parts(y, tag)


def _difference(v: View, s: Slot) -> Tuple[int, int]:
    """Both sides of a BND slot's difference."""
    return v.parts(_slot(v, s, "B"), "sub")


def shape_71(v: View, p: Slots, t: Slot) -> None:
    """Rule 71: of BND(a - c, I), BND(b - d, J) comes BND((a + b) - (c + d), I + J)."""
    a, b, c, d = _pairs(v, t, "add")
    _need(len(p) == 2 and _difference(v, p[0]) == (a, c) and _difference(v, p[1]) == (b, d))


def shape_72(v: View, p: Slots, t: Slot) -> None:
    """Rule 72: of BND(a - c, I), BND(b - d, J) comes BND((a - b) - (c - d), I - J)."""
    a, b, c, d = _pairs(v, t, "sub")
    _need(len(p) == 2 and _difference(v, p[0]) == (a, c) and _difference(v, p[1]) == (b, d))


def shape_73(v: View, p: Slots, t: Slot) -> None:
    """Rule 73: of BND(a, I), BND(b - d, J), BND(a - c, K), BND(d, L) comes BND(a * b - c * d, I * J
    + K * L).
    """
    a, b, c, d = _pairs(v, t, "mul")
    _need(len(p) == 4 and p[0] == ("B", a) and p[3] == ("B", d)
          and _difference(v, p[1]) == (b, d) and _difference(v, p[2]) == (a, c))


def shape_74(v: View, p: Slots, t: Slot) -> None:
    """Rule 74: of BND(a - b, I) comes BND((-a) - (-b), -I)."""
    a, b = _pairs(v, t, "neg")
    _need(len(p) == 1 and _difference(v, p[0]) == (a, b))


def shape_75(v: View, p: Slots, t: Slot) -> None:
    """Rule 75: of BND(a - b, I), BND(b - c, J) comes BND(a - c, I + J)."""
    a, c = _difference(v, t)
    _need(len(p) == 2)
    a1, b1 = _difference(v, p[0])
    b2, c2 = _difference(v, p[1])
    _need((a1, b1, c2) == (a, b2, c))


def shape_76(v: View, p: Slots, t: Slot) -> None:
    """Rule 76: of BND(a - b, I), BND(c - b, J) comes BND(a - c, I - J)."""
    a, c = _difference(v, t)
    _need(len(p) == 2)
    a1, b1 = _difference(v, p[0])
    c2, b2 = _difference(v, p[1])
    _need((a1, b1, c2) == (a, b2, c))


def shape_77(v: View, p: Slots, t: Slot) -> None:
    """Rule 77: of BND(b, I), BND(a - b, J) comes BND(a, I + J)."""
    a = _slot(v, t, "B")
    _need(len(p) == 2)
    b = _slot(v, p[0], "B")
    _need(_difference(v, p[1]) == (a, b))


def shape_78(v: View, p: Slots, t: Slot) -> None:
    """Rule 78: of BND(a, I), BND(a - b, J) comes BND(b, I - J)."""
    b = _slot(v, t, "B")
    _need(len(p) == 2)
    a = _slot(v, p[0], "B")
    _need(_difference(v, p[1]) == (a, b))


def shape_80(v: View, p: Slots, t: Slot, hint: HintRow) -> Sequence[Need]:
    """Rule 80: of a BND, ABS, FIX or NZR fact on b; NZR of each divisor of the row, by rising
    number; one fact for each constraint, in their order comes the same fact on a.
    """
    _need(t[0] in "BAFN" and t[1:] == (hint.left,))
    rows = [(t[0], hint.right)]
    rows += [("N", d) for d in hint.divisors]
    rows += [n.slot() for n in hint.needs]
    _need(p == tuple(rows) and len(p) <= 65535)
    return hint.needs


def shape_90(v: View, p: Slots, t: Slot) -> None:
    """Rule 90: of BND(x, I), FIX(x, k) comes VOID."""
    _need(t == VOID_SLOT and len(p) == 2)
    x = _slot(v, p[0], "B")
    _need(p[1] == ("F", x))


def shape_91(v: View, p: Slots, t: Slot) -> None:
    """Rule 91: of BND(x, [0, 0]), NZR(x) comes VOID."""
    _need(t == VOID_SLOT and len(p) == 2)
    x = _slot(v, p[0], "B")
    _need(p[1] == ("N", x))


def shape_92(v: View, p: Slots, t: Slot) -> None:
    """Rule 92: of REL(x, y, nothing), NZR(y) comes VOID."""
    _need(t == VOID_SLOT and len(p) == 2)
    x, y = _slot(v, p[0], "R")
    _need(p[1] == ("N", y))
