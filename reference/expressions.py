"""Numbers, operators and expressions of scripts, with the limits of what is written.

docs/FORMATS.md, "Grammar" (`operator`, `bound`, `whole`, `expr`) and the limits of "Refusals".
"""

from __future__ import annotations

from typing import Any, Optional, Tuple

from . import literal
from .dag import Node
from .rounding import DIRECTIONS, Rounding
from .script import Bound, Script
from .tokens import DIGITS, UNEXPECTED, Reading, Stop, Token, Tokens

# Rows of the table of refusals, and of limits.
FORMULA_FORM, UNSUPPORTED, NAME_USED, BAD_BOUND, SPLIT_RANGE, BAD_SPLIT, LITERAL_LIMIT, LIMIT = \
    range(4, 12)
KINDS = ["", "NotText", "BadToken", "Unexpected", "FormulaForm",
         "UnsupportedOperator", "NameUsed", "BadBound", "SplitRange",
         "BadSplit", "LiteralLimit", "Limit"]
LIMITS = ["Bytes", "Nesting", "Definitions", "Propositions", "Hints", "Nodes",
          "Lsb", "Splits", "Pieces", "Cases"]
TEXT_LIMIT = 1 << 20


class _Frame:
    """An expression that is open: what closes it, and the operands that wait for their last one."""
    __slots__ = ("kind", "data", "add_left", "add_op", "mul_left", "mul_op", "negs")

    def __init__(self, kind: str, data: Any = None) -> None:
        """Nothing of it is read yet."""
        self.kind, self.data = kind, data
        self.clear()

    def clear(self) -> None:
        """No operand is waiting."""
        self.add_left = self.add_op = self.mul_left = self.mul_op = None
        self.negs = 0


class Expressions(Reading):
    """Reads expressions, and what they are made of."""

    def __init__(self, text: str) -> None:
        """Nothing is read yet."""
        Reading.__init__(self, Tokens(text))
        self.s = Script()
        self.dag = self.s.dag
        self.operators = {}
        self.defined = {}
        self.variables = {}
        self.nesting = 0
        self.passed = set()
        self.counts = dict.fromkeys(LIMITS, 0)
        self.open_name = None       # the definition that is being read

    # -- tokens

    def next_is(self, text: str) -> bool:
        """Whether the coming token is this sign; a BadToken isn't."""
        t = self.tokens.get(self.at)
        return t is not None and t.kind == "sign" and t.text == text

    def unexpected(self) -> None:
        """The first token that no script has here: reading ends at it."""
        t = self.peek()
        before = self.tokens.get(self.at - 1) if self.at else None
        after = self.tokens.get(self.at + 1)
        opens = t.kind == "sign" and t.text == "("
        if t.kind == "reserved" and t.text in ("float", "sqrt"):
            self.unsupported(t)
        if opens and before is not None and self.is_plain(before):
            self.unsupported(before)
        if self.is_plain(t) and after is not None and after.kind == "sign" and after.text == "(":
            self.unsupported(t)
        self.refuse(UNEXPECTED, t.start)
        raise Stop

    def is_plain(self, t: Token) -> bool:
        """A name that isn't an operator's."""
        return t.kind == "name" and t.text not in self.operators

    def unsupported(self, t: Token) -> None:
        """A word that stands for an operator that there isn't: reading ends at it."""
        self.refuse(UNSUPPORTED, t.start)
        raise Stop

    def limit(self, name: str, token: Token) -> None:
        """Notes that the token passes the limit; later tokens can't come first."""
        if name not in self.passed:
            self.passed.add(name)
            self.refuse(LIMIT, token.start, LIMITS.index(name))

    def count(self, name: str, token: Token, most: int, by: int = 1) -> None:
        """Counts towards a limit."""
        self.counts[name] += by
        if self.counts[name] > most:
            self.limit(name, token)

    def count_nodes(self, token: Token, by: int = 1) -> None:
        """Counts nodes at the token."""
        self.count("Nodes", token, 512, by)

    def nest(self, token: Token) -> None:
        """One more sign is open."""
        self.nesting += 1
        if self.nesting > 64:
            self.limit("Nesting", token)

    # -- small forms

    def whole(self) -> Tuple[Token, int]:
        """An optional minus and decimal digits alone; the digits' token and the number."""
        negative = False
        if self.is_sign("-"):
            self.take()
            negative = True
        t = self.peek()
        if t.kind != "literal" or not DIGITS.fullmatch(t.text):
            self.unexpected()
        self.take()
        n = int(t.text)
        return t, -n if negative else n

    def lsb(self) -> int:
        """A power of two within its limit."""
        t, n = self.whole()
        if not -512 <= n <= 512:
            self.limit("Lsb", t)
            n = 0
        return n

    def direction(self) -> str:
        """A direction."""
        t = self.peek()
        if t.kind not in ("name", "reserved"):
            self.unexpected()
        self.take()
        if t.text not in DIRECTIONS:
            self.unsupported(t)
        return t.text

    def operator(self) -> Rounding:
        """After `fixed` or `int`: the operator up to its direction."""
        word = self.take()
        self.expect("<")
        n = 0
        if word.text == "fixed":
            n = self.lsb()
            self.expect(",")
        return (self.direction(), n)

    def bound(self) -> Bound:
        """A bound: LiteralLimit if its literal is past its limits."""
        first = self.peek()
        negative = False
        if first.kind == "sign" and first.text in "+-":
            self.take()
            negative = first.text == "-"
        t = self.peek()
        if t.kind != "literal":
            self.unexpected()
        self.take()
        raw = literal.Raw(t.text)
        if not raw.fits:
            self.refuse(LITERAL_LIMIT, t.start)
        sign = first.text if first is not t else ""
        return Bound(negative, raw, first, sign + t.text)

    # -- expressions

    def rounded(self, node: Node, op: Optional[Rounding]) -> int:
        """A written operation, rounded if the definition has an operator."""
        v = self.dag.add(node)
        if op is not None:
            v = self.dag.add(("rnd", op[0], op[1], v))
        return v

    def expr(self, op: Optional[Rounding] = None) -> int:
        """The node of an expression; each operation in it is rounded by op."""
        frames = [_Frame("base")]
        per = 1 if op is None else 2
        while True:
            # an operand is due
            t = self.peek()
            f = frames[-1]
            if t.kind == "literal":
                self.take()
                self.count_nodes(t)
                raw = literal.Raw(t.text)
                if raw.fits:
                    v = self.dag.add(("lit",) + raw.normal())
                else:
                    self.refuse(LITERAL_LIMIT, t.start)
                    v = self.dag.add(("lit", 0, 0, 0))
            elif t.kind == "name":
                self.take()
                if self.next_is("("):
                    if t.text in self.operators:
                        self.count_nodes(t)
                        frames.append(_Frame("call", self.operators[t.text]))
                    else:
                        self.unknown_operator(t)
                    self.nest(self.take())
                    continue
                if t.text in self.operators:
                    self.unexpected()
                if t.text in self.defined:
                    v = self.defined[t.text]
                else:
                    v = self.variable(t)
            elif t.kind == "reserved" and t.text in ("fixed", "int"):
                self.count_nodes(t)
                data = self.operator()
                self.expect(">")
                self.nest(self.expect("("))
                frames.append(_Frame("call", data))
                continue
            elif t.kind == "reserved" and t.text == "fma":
                self.take()
                self.count_nodes(t, 1 + per)
                self.nest(self.expect("("))
                frames.append(_Frame("fma", []))
                continue
            elif t.kind == "reserved" and t.text in ("float", "sqrt"):
                self.unsupported(t)
            elif t.kind == "sign" and t.text == "-":
                self.take()
                self.count_nodes(t)
                self.nest(t)
                f.negs += 1
                continue
            elif t.kind == "sign" and t.text == "(":
                self.nest(self.take())
                frames.append(_Frame("paren"))
                continue
            elif t.kind == "sign" and t.text == "|":
                self.take()
                self.count_nodes(t)
                self.nest(t)
                frames.append(_Frame("bar"))
                continue
            else:
                self.unexpected()
            # an operator is due
            while True:
                f = frames[-1]
                while f.negs:
                    v = self.dag.add(("neg", v))
                    f.negs -= 1
                    self.nesting -= 1
                if f.mul_op:
                    v = self.rounded((f.mul_op, f.mul_left, v), op)
                    f.mul_op = None
                t = self.peek()
                sign = t.text if t.kind == "sign" else ""
                if sign in ("*", "/"):
                    self.take()
                    self.count_nodes(t, per)
                    f.mul_left, f.mul_op = v, "mul" if sign == "*" else "div"
                    break
                if f.add_op:
                    v = self.rounded((f.add_op, f.add_left, v), op)
                    f.add_op = None
                if sign in ("+", "-"):
                    self.take()
                    self.count_nodes(t, per)
                    f.add_left, f.add_op = v, "add" if sign == "+" else "sub"
                    break
                if f.kind == "base":
                    return v
                if f.kind == "fma" and len(f.data) < 2:
                    self.expect(",")
                    f.data.append(v)
                    f.clear()
                    break
                self.expect("|" if f.kind == "bar" else ")")
                self.nesting -= 1
                frames.pop()
                if f.kind == "bar":
                    v = self.dag.add(("abs", v))
                elif f.kind == "call":
                    v = self.dag.add(("rnd", f.data[0], f.data[1], v))
                elif f.kind == "fma":
                    a, b = f.data
                    p = self.dag.add(("mul", a, b))
                    v = self.rounded(("add", p, v), op)

    def unknown_operator(self, t: Token) -> None:
        """A name before a parenthesis that is no operator's."""
        if self.open_name is not None and t.text == self.open_name.text:
            self.refuse(NAME_USED, self.open_name.start)
        self.unsupported(t)

    def variable(self, t: Token) -> int:
        """The node of a variable, which may be new."""
        v = self.variables.get(t.text)
        if v is None:
            self.count_nodes(t)
            n = len(self.variables)
            v = self.dag.add(("var", n))
            self.variables[t.text] = v
            self.s.variables.append((t.text, v))
            if self.open_name is not None and t.text == self.open_name.text:
                self.refuse(NAME_USED, self.open_name.start)
        return v
