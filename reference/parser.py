"""Definitions, formulas and hints of scripts, with every refusal.

docs/FORMATS.md, "Grammar", "What a script says" and "Refusals".
"""

from __future__ import annotations

from typing import Any, Dict, List, Optional, Tuple

from .expressions import (BAD_BOUND, BAD_SPLIT, FORMULA_FORM, KINDS, LIMIT, LIMITS, NAME_USED,
                          SPLIT_RANGE, TEXT_LIMIT, Expressions)
from .grid import HIGH, LOW, ONE, Interval, down_fraction, up_fraction
from .script import Goal, Hint, Need, Proposition, Script, Split
from .tokens import DIGITS, Refusal, Stop, Token, decode


class Parser(Expressions):
    """Reads a script."""

    # -- definitions

    def definition_name(self, t: Token) -> None:
        """NameUsed if the name is defined or used already."""
        if t.text in self.operators or t.text in self.defined or t.text in self.variables:
            self.refuse(NAME_USED, t.start)

    def define(self, table: Dict[str, Any], t: Token, meaning: Any) -> None:
        """The name has this meaning from here on."""
        if t.text not in self.operators and t.text not in self.defined:
            table[t.text] = meaning

    def definition(self) -> None:
        """A definition of an operator or of an expression."""
        t = self.take()
        self.count("Definitions", t, 256)
        if t.kind == "sign":
            name = self.peek()
            if name.kind != "name":
                self.unexpected()
            self.take()
            self.definition_name(name)
            self.expect("=")
            word = self.peek()
            if word.kind not in ("name", "reserved"):
                self.unexpected()
            if word.text in ("fixed", "int"):
                data = self.operator()
                self.expect(">")
            else:
                self.unsupported(word)
            self.expect(";")
            self.define(self.operators, name, data)
            return
        self.definition_name(t)
        op = None
        word = self.peek()
        if word.kind == "name":
            op = self.operators.get(word.text)
            if op is None:
                after = self.tokens.get(self.at + 1)
                before_equals = after is not None and (after.kind, after.text) == ("sign", "=")
                if word.text not in self.defined and before_equals:
                    self.unsupported(word)
                self.unexpected()
            self.take()
            self.expect("=")
        elif word.kind == "reserved" and word.text in ("fixed", "int"):
            op = self.operator()
            if self.is_sign(">="):
                self.take()
            else:
                self.expect(">")
                self.expect("=")
        elif word.kind == "reserved" and word.text in ("float", "sqrt"):
            self.unsupported(word)
        else:
            self.expect("=")
        self.open_name = t
        v = self.expr(op)
        self.expect(";")
        self.open_name = None
        self.define(self.defined, t, v)

    # -- the formula

    def proposition(self, negation: Optional[Token]) -> Proposition:
        """A proposition; `negation` is the `not` before it."""
        t = self.peek()
        p = Proposition(self.at)
        if t.kind == "sign" and t.text == "@":
            self.take()
            self.count("Propositions", t, 128)
            word = self.peek()
            if word.kind != "name" or word.text != "FIX":
                self.unexpected()
            self.take()
            self.fix_tokens.append(t)
            p.kind = "fix"
            if negation:
                self.refuse(FORMULA_FORM, negation.start)
            self.nest(self.expect("("))
            p.left = self.expr()
            self.expect(",")
            p.k = self.lsb()
            self.expect(")")
            self.nesting -= 1
            return p
        begins = (t.kind in ("literal", "name")
                  or (t.kind == "reserved" and t.text in ("fixed", "int", "fma", "float", "sqrt"))
                  or (t.kind == "sign" and t.text in ("-", "(", "|")))
        if not begins:
            self.unexpected()
        self.count("Propositions", t, 128)
        p.left = self.expr()
        p.last = self.at - 1
        t = self.peek()
        if t.kind == "sign" and t.text in ("<=", ">="):
            self.take()
            b = self.bound()
            if t.text == "<=":
                p.kind, p.upper = "le", b
            else:
                p.kind, p.lower = "ge", b
            p.negated = negation is not None
            return p
        if t.kind == "sign" and t.text == "-/":
            self.take()
            p.kind = "rel"
            if negation:
                self.refuse(FORMULA_FORM, negation.start)
            p.right = self.expr()
            p.last = self.at - 1
        else:
            p.kind = "in"
        t = self.peek()
        if t.kind != "reserved" or t.text != "in":
            self.unexpected()
        self.take()
        if negation and p.kind == "in":
            self.refuse(FORMULA_FORM, negation.start)
        if self.is_sign("?"):
            self.ask_tokens.append(self.take())
            p.ask = True
            return p
        self.expect("[")
        p.lower = self.bound()
        # a literal past its limits is compared with nothing
        if p.kind == "rel" and p.lower.raw.fits and down_fraction(p.lower.value) <= -ONE:
            self.refuse(BAD_BOUND, p.lower.first.start)
        self.expect(",")
        p.upper = self.bound()
        if p.lower.raw.fits and p.upper.raw.fits and p.upper.value < p.lower.value:
            self.refuse(BAD_BOUND, p.upper.first.start)
        self.expect("]")
        return p

    def formula(self) -> List[List[Proposition]]:
        """The formula; its last part is answered."""
        self.parts = []
        before = 1
        try:
            while True:
                self.ask_tokens, self.fix_tokens, self.late = [], [], []
                over = None
                part = [[]]
                while True:
                    t = self.peek()
                    negation = None
                    while t.kind == "reserved" and t.text == "not" and negation is None:
                        self.take()
                        self.late.append(t)
                        negation = t
                        t = self.peek()
                    part[-1].append(self.proposition(negation))
                    t = self.peek()
                    sign = t.text if t.kind == "sign" else ""
                    if sign == "/\\":
                        self.take()
                    elif sign == "\\/":
                        self.take()
                        self.late.append(t)
                        part.append([])
                        if over is None and before * len(part) > 64:
                            over = t
                    elif sign in ("->", "}"):
                        break
                    else:
                        self.unexpected()
                if sign == "->":
                    self.take()
                    for q in self.ask_tokens:
                        self.refuse(FORMULA_FORM, q.start)
                    if over is not None:
                        self.limit("Cases", over)
                    before *= len(part)
                    self.parts.append(part)
                    continue
                self.take()
                break
        finally:
            for q in self.fix_tokens + self.late:
                self.refuse(FORMULA_FORM, q.start)
        return part

    # -- hints

    def split_name(self) -> Tuple[Token, Optional[List[Interval]]]:
        """A split variable's name and its ranges per case; None where it is refused."""
        t = self.peek()
        if t.kind != "name":
            self.unexpected()
        self.take()
        if t.text in self.operators or t.text in self.defined:
            self.refuse(BAD_SPLIT, t.start)
            return t, None
        v = self.variables.get(t.text)
        ranges = [c.split_range(v) if v is not None else None for c in self.all_cases]
        if v is None or None in ranges:
            self.refuse(SPLIT_RANGE, t.start)
            return t, None
        if v not in self.s.split_order:
            self.s.split_order.append(v)
        return t, ranges

    def unconditional(self) -> None:
        """`$ x ..;`: every box is cut."""
        self.count("Splits", self.take(), 4)
        name, ranges = self.split_name()
        var = self.variables.get(name.text)
        pieces, points = 4, None
        t = self.peek()
        if t.kind == "reserved" and t.text == "in":
            self.take()
            t = self.peek()
            if t.kind == "literal" and DIGITS.fullmatch(t.text):
                self.take()
                pieces = int(t.text)
                if pieces == 0:
                    self.refuse(BAD_SPLIT, t.start)
                if pieces > 64:
                    self.limit("Pieces", t)
            elif t.kind == "sign" and t.text == "(":
                self.take()
                points = []
                while True:
                    b = self.bound()
                    p = down_fraction(b.value)
                    if len(points) == 63:
                        self.limit("Pieces", b.first)
                    if ranges is not None and b.raw.fits:
                        inside = any(lo < p < hi for lo, hi in ranges)
                        if not inside or (points and p <= points[-1]):
                            self.refuse(BAD_SPLIT, b.first.start)
                    points.append(p)
                    if self.is_sign(","):
                        self.take()
                        continue
                    self.expect(")")
                    break
            else:
                self.unexpected()
        self.expect(";")
        self.s.cuts.append(Split(var, None if points is not None else pieces, points))

    def goal_splits(self) -> None:
        """After the `$` of `e $ x, y;`."""
        while True:
            name, ranges = self.split_name()
            if name.text not in self.half_names:
                self.half_names.append(name.text)
                if len(self.half_names) > 4:
                    self.limit("Splits", name)
                if ranges is not None:
                    self.s.halves.append(self.variables[name.text])
            if self.is_sign(","):
                self.take()
                continue
            self.expect(";")
            return

    def needs(self) -> List[Need]:
        """The constraints of a hint, up to the closing brace."""
        rows = []
        while True:
            e = self.expr()
            t = self.peek()
            sign = t.text if t.kind == "sign" else ""
            if sign == "<>":
                self.take()
                z = self.peek()
                if z.kind != "literal" or z.text != "0":
                    self.unexpected()
                self.take()
                rows.append(Need("<>", e, None))
            elif sign in ("<", "<=", ">", ">="):
                self.take()
                rows.append(Need(sign, e, self.bound()))
            else:
                self.unexpected()
            if self.is_sign(","):
                self.take()
                continue
            self.expect("}")
            return rows

    def hint(self) -> None:
        """A hint."""
        t = self.peek()
        if t.kind == "sign" and t.text == "$":
            self.count("Hints", t, 64)
            return self.unconditional()
        begins = (t.kind in ("literal", "name")
                  or (t.kind == "reserved" and t.text in ("fixed", "int", "fma", "float", "sqrt"))
                  or (t.kind == "sign" and t.text in ("-", "(", "|")))
        if not begins:
            self.unexpected()
        self.count("Hints", t, 64)
        left = self.expr()
        t = self.peek()
        sign = t.text if t.kind == "sign" else ""
        if sign == "->":
            self.take()
            right = self.expr()
            rows = []
            if self.is_sign("{"):
                self.take()
                rows = self.needs()
            self.expect(";")
            self.s.hints.append(Hint(left, right, rows))
        elif sign == "~":
            self.take()
            right = self.expr()
            self.expect(";")
            self.s.likes.append((left, right))
        elif sign in (",", "$"):
            while self.is_sign(","):
                self.take()
                self.expr()
            self.expect("$")
            self.goal_splits()
        else:
            self.unexpected()

    # -- the whole

    def goal(self, p: Proposition) -> Goal:
        """The goal that a proposition of the last part is."""
        toks = self.tokens.list[p.first:p.last + 1]
        text = " ".join(t.text for t in toks)
        slot = ("R", p.left, p.right) if p.kind == "rel" else ("B", p.left)
        want = None
        if not p.ask:
            lo = up_fraction(p.lower.value) if p.lower else LOW
            hi = down_fraction(p.upper.value) if p.upper else HIGH
            if lo != HIGH and hi != LOW and lo <= hi:
                want = (lo, hi)
        g = Goal(slot, p.ask, want, text)
        g.prop = p
        return g

    def read(self) -> None:
        """The whole script, or up to where the reading ends."""
        while True:
            t = self.peek()
            if t.kind == "sign" and t.text == "{":
                self.take()
                break
            if t.kind == "name" or (t.kind == "sign" and t.text == "@"):
                self.definition()
            else:
                self.unexpected()
        part = self.formula()
        s = self.s
        s.parts = self.parts
        s.hyps = [p for q in s.parts for c in q for p in c]
        if any(r[1] == LIMIT for r in self.refusals):
            self.all_cases = [s]
        else:
            self.all_cases = [s.case(i) for i in range(s.cases())]
        goals = [p for c in part for p in c]
        self.half_names = []
        while self.peek().kind != "end":
            self.hint()
        if self.refusals:
            return
        s.goals = [self.goal(p) for p in goals]
        for p in s.hyps + goals:
            if p.kind == "rel":
                s.apart.append((p.left, p.right))
            elif self.dag[p.left][0] == "sub":
                s.apart.append(self.dag[p.left][1:])
        for h in s.hints:
            for e in (h.left, h.right):
                if self.dag[e][0] == "sub":
                    s.apart.append(self.dag[e][1:])


def parse(data: bytes) -> Script:
    """The script that the bytes spell; raises their Refusal."""
    try:
        p = Parser(decode(data, TEXT_LIMIT))
    except Refusal as r:
        raise Refusal("Limit(Bytes)" if r.kind == "Limit" else r.kind, r.at) from None
    try:
        p.read()
    except Stop:
        pass
    found = p.first_refusal(KINDS)
    if found:
        kind, at, limit = found
        raise Refusal("Limit(%s)" % LIMITS[limit] if kind == "Limit" else kind, at)
    return p.s
