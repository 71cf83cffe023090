"""Exact evaluation of a script at one point: docs/FORMATS.md, "Points"."""

from __future__ import annotations

from fractions import Fraction
from math import gcd
from typing import List, Optional, Sequence, Tuple, Union

from . import literal
from .dag import Dag
from .rounding import round_fraction
from .script import Bound, Hint, Proposition, Script
from .tokens import Reading, Refusal, Stop, Token, Tokens, decode

KINDS = ["", "NotText", "BadToken", "Unexpected", "Unknown", "Twice",
         "ZeroDivisor", "LiteralLimit", "Limit", "Missing"]
TEXT_LIMIT = 1 << 16
WIDE = 1 << 127


# A variable's value, and the number that it is divided by or None; a goal's value.
Entry = Tuple[Fraction, Optional[Fraction]]
Shown = Union[Fraction, str, None]


class TooWide(Exception):
    """place: "entry 1", "node 0" and so on."""


class Parser(Reading):
    """Reads a point of the script."""

    def __init__(self, text: str, script: Script) -> None:
        """Knows the script's variables."""
        Reading.__init__(self, Tokens(text))
        self.known = {n: k for k, (n, _) in enumerate(script.variables)}
        self.rows = {}

    def literal(self) -> Tuple[Token, literal.Raw]:
        """A literal: LiteralLimit if it is past its limits."""
        t = self.peek()
        if t.kind != "literal":
            self.unexpected()
        self.take()
        raw = literal.Raw(t.text)
        if not raw.fits:
            self.refuse(7, t.start)
        return t, raw

    def read(self) -> None:
        """All entries, up to the end or to where the reading ends."""
        while True:
            t = self.peek()
            if t.kind == "end":
                return
            if t.kind != "name":
                self.unexpected()
            self.take()
            k = self.known.get(t.text)
            if k is None:
                self.refuse(4, t.start)
            elif k in self.rows:
                self.refuse(5, t.start)
            self.rows.setdefault(k, None)
            self.expect("=")
            first = self.peek()
            negative = False
            if first.kind == "sign" and first.text in "+-":
                negative = self.take().text == "-"
            _, raw = self.literal()
            under = None
            if self.is_sign("/"):
                self.take()
                z, under = self.literal()
                if under.fits and under.num == 0:
                    self.refuse(6, z.start)
            self.expect(";")
            self.rows[k] = (Bound(negative, raw, first, ""), under)


def read_point(script: Script, data: bytes) -> List[Entry]:
    """One (value, divisor or None) per variable; raises Refusal."""
    text = decode(data, TEXT_LIMIT)
    p = Parser(text, script)
    try:
        p.read()
    except Stop:
        pass
    if any(k not in p.rows for k in range(len(script.variables))):
        p.refuse(9, len(text))
    found = p.first_refusal(KINDS)
    if found:
        raise Refusal(found[0], found[1])
    out = []
    for k in range(len(script.variables)):
        b, under = p.rows[k]
        out.append((b.value, under.value() if under else None))
    return out


class Widths:
    """Says whether numbers stay below 2^127."""

    def __init__(self) -> None:
        """No place is known yet."""
        self.place = None

    def need(self, *numbers: int) -> None:
        """Raises TooWide if one of the numbers isn't below 2^127."""
        for n in numbers:
            if abs(n) >= WIDE:
                raise TooWide(self.place)

    def fraction(self, q: Fraction) -> Fraction:
        """The fraction, whose numerator and denominator have to be narrow."""
        self.need(q.numerator, q.denominator)
        return q

    def total(self, p: Fraction, q: Fraction, sign: int) -> Fraction:
        """p + q or p - q, by the sign 1 or -1."""
        n, d, m, e = p.numerator, p.denominator, q.numerator, q.denominator
        g = gcd(d, e)
        a, b = n * (e // g), m * (d // g)
        self.need(a, b, a + sign * b, d * (e // g))
        return p + sign * q

    def compare(self, p: Fraction, q: Fraction) -> int:
        """1, 0 or -1 as p is above q, equal or below."""
        n, d, m, e = p.numerator, p.denominator, q.numerator, q.denominator
        g = gcd(d, e)
        self.need(n * (e // g), m * (d // g))
        return (p > q) - (p < q)

    def rounding(self, direction: str, lsb: int, x: Fraction) -> Fraction:
        """x rounded to a multiple of 2^lsb."""
        self.fraction(x / Fraction(2) ** lsb)
        return self.fraction(round_fraction(direction, lsb, x))


def evaluate_nodes(dag: Dag, entries: Sequence[Fraction],
                   widths: Widths) -> List[Optional[Fraction]]:
    """The value of each node, or None if it has none."""
    values = []
    for k, node in enumerate(dag.nodes):
        widths.place = "node %d" % k
        tag = node[0]
        if tag == "var":
            v = entries[node[1]]
        elif tag == "lit":
            v = widths.fraction(literal.value(node[1:]))
        elif tag == "rnd":
            v = values[node[3]]
            if v is not None:
                v = widths.rounding(node[1], node[2], v)
        else:
            parts = [values[i] for i in node[1:]]
            if None in parts:
                v = None
            elif tag == "neg":
                v = -parts[0]
            elif tag == "abs":
                v = abs(parts[0])
            elif tag == "add":
                v = widths.total(parts[0], parts[1], 1)
            elif tag == "sub":
                v = widths.total(parts[0], parts[1], -1)
            elif tag == "mul":
                v = widths.fraction(parts[0] * parts[1])
            elif parts[1] == 0:
                v = None
            else:
                v = widths.fraction(parts[0] / parts[1])
        values.append(v)
    return values


def judge(p: Proposition, values: Sequence[Optional[Fraction]],
          widths: Widths) -> Tuple[Shown, bool]:
    """(value shown, truth) of a proposition; the value may be None or "zero"."""
    bounds = []
    for b, sign in ((p.lower, 1), (p.upper, -1)):
        if b is not None:
            bounds.append((widths.fraction(b.value), sign))
    x = values[p.left]
    if p.kind == "fix":
        if x is None:
            return None, False
        s = widths.fraction(x / Fraction(2) ** p.k)
        return x, s.denominator == 1
    if p.kind == "rel":
        y = values[p.right]
        if x is None or y is None:
            return None, False
        if y == 0:
            return ("zero", True) if x == 0 else (None, False)
        q = widths.fraction(x / y)
        x = widths.total(q, Fraction(1), -1)
    if x is None:
        return None, False
    truth = True
    for b, sign in bounds:
        order = widths.compare(x, b) * sign
        truth = truth and (order < 0 if p.negated else order >= 0)
    return x, truth


def show(v: Shown) -> str:
    """A goal's value as it is printed."""
    if v is None:
        return "no value"
    if v == "zero":
        return "zero"
    return str(v.numerator) if v.denominator == 1 else "%d/%d" % (v.numerator, v.denominator)


def hint_holds(h: Hint, values: Sequence[Optional[Fraction]], widths: Widths) -> bool:
    """An assumed hint's truth: constraints that have values and hold make the sides agree."""
    held = True
    for n in h.needs:
        v = values[n.expr]
        bound = n.value
        if bound is not None:
            widths.fraction(bound)
        if v is None:
            held = False
            continue
        if n.kind == "<>":
            held = held and v != 0
            continue
        o = widths.compare(v, bound)
        held = held and {"<": o < 0, "<=": o <= 0, ">": o > 0, ">=": o >= 0}[n.kind]
    a, b = values[h.left], values[h.right]
    if not held or a is None or b is None:
        return True
    return a == b


def truth_of_parts(script: Script, truths: Sequence[bool]) -> bool:
    """Whether each hypothesis part has a conjunction all of whose claims hold."""
    k = 0
    good = True
    for part in script.parts:
        any_held = False
        for conj in part:
            n = len(conj)
            any_held = any_held or all(truths[k:k + n])
            k += n
        good = good and any_held
    return good


def evaluate(script: Script, marks: Sequence[bool], point: Sequence[Entry]) -> str:
    """The text of `at`; raises TooWide."""
    w = Widths()
    entries = []
    for k, (v, under) in enumerate(point):
        w.place = "entry %d" % (k + 1)
        w.fraction(v)
        if under is not None:
            w.fraction(under)
            v = w.fraction(v / under)
        entries.append(v)
    values = evaluate_nodes(script.dag, entries, w)
    lines, truths = [], []
    for k, p in enumerate(script.hyps):
        w.place = "hypothesis %d" % (k + 1)
        _, truth = judge(p, values, w)
        truths.append(truth)
        lines.append("hypothesis %d: %s" % (k + 1, "holds" if truth else "fails"))
    for k, g in enumerate(script.goals):
        w.place = "goal %d" % (k + 1)
        v, truth = judge(g.prop, values, w)
        line = "goal %d: %s" % (k + 1, show(v))
        if not g.ask:
            line += ", holds" if truth else ", fails"
        lines.append(line)
    meets = truth_of_parts(script, truths)
    for k, h in enumerate(script.hints):
        if not marks[k]:
            w.place = "hint %d" % (k + 1)
            truth = hint_holds(h, values, w)
            meets = meets and truth
            lines.append("hint %d: %s" % (k + 1, "holds" if truth else "fails"))
    lines.append("point: meets" if meets else "point: misses")
    return "".join(x + "\n" for x in lines)
