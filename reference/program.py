"""Fixed-point programs and the scripts that say that no step wraps.

docs/FORMATS.md, "Fixed-point programs".
"""

from __future__ import annotations

import re
from fractions import Fraction
from typing import Any, Dict, Tuple, Union

from . import literal
from .rounding import DIRECTIONS, round_fraction
from .script import Bound
from .tokens import DIGITS, RESERVED, Reading, Refusal, Stop, Token, Tokens, decode

SIGN = re.compile(r"<=|>=|<>|->|-/|/\\|\\/|>>|<<|[{}()\[\],;=+\-*/|<>?$~@:]")
FORMAT = re.compile(r"[su][0-9]+\.[0-9]+")
KINDS = ["", "NotText", "BadToken", "Unexpected", "BadFormat", "Undefined",
         "NameUsed", "BadRange", "LiteralLimit", "BadDirection", "Limit"]
TEXT_LIMIT = 1 << 16


# A name or a literal: its kind, its text, and a literal's value; a sign with its operands.
Operand = Tuple[Any, ...]
Operation = Tuple[Any, ...]


class Format:
    """A format, with the least and the greatest word of its values."""

    def __init__(self, text: str) -> None:
        """Takes `sW.F` or `uW.F` apart, and judges its limits."""
        w, f = text[1:].split(".")
        self.w = int(w) if len(w.lstrip("0")) < 5 else 10 ** 5
        self.f = int(f) if len(f.lstrip("0")) < 5 else 10 ** 5
        self.signed = text[0] == "s"
        self.fits = 1 <= self.w <= 60 and 0 <= self.f <= 60
        if self.fits:
            if self.signed:
                self.least, self.greatest = -(1 << self.w - 1), (1 << self.w - 1) - 1
            else:
                self.least, self.greatest = 0, (1 << self.w) - 1

    def lsb(self) -> str:
        """L of the script, as it is written."""
        return "-%d" % self.f if self.f else "0"

    def value(self, w: int) -> Fraction:
        """The value of the word w."""
        return Fraction(w, 1 << self.f)

    def written(self, w: int) -> str:
        """The value of the word w as the script writes it."""
        return "%db%s" % (w, self.lsb())


class Parser(Reading):
    """Reads a program."""

    def __init__(self, text: str) -> None:
        """No input, step or output is read yet."""
        Reading.__init__(self, Tokens(text, SIGN, RESERVED | {"out"}, FORMAT))
        self.names = set()
        self.inputs, self.steps, self.outputs = [], [], []
        self.weight = 0

    def name(self) -> Token:
        """A name of at most 32 bytes."""
        t = self.peek()
        if t.kind != "name":
            self.unexpected()
        self.take()
        if len(t.text) > 32:
            self.refuse(10, t.start)
        return t

    def new_name(self, t: Token, by: int) -> None:
        """The name of an input or step, which none before may have."""
        if t.text in self.names:
            self.refuse(6, t.start)
        self.weigh(t, by)

    def weigh(self, t: Token, by: int) -> None:
        """Counts inputs twice, steps and outputs once."""
        self.weight += by
        if self.weight > 128:
            self.refuse(10, t.start)

    def format(self) -> Format:
        """A format."""
        t = self.peek()
        if t.kind != "format":
            self.unexpected()
        self.take()
        f = Format(t.text)
        if not f.fits:
            self.refuse(4, t.start)
        return f

    def literal(self) -> Tuple[Token, literal.Raw]:
        """A literal: LiteralLimit if it is past its limits."""
        t = self.peek()
        if t.kind != "literal":
            self.unexpected()
        self.take()
        raw = literal.Raw(t.text)
        if not raw.fits:
            self.refuse(8, t.start)
        return t, raw

    def bound(self) -> Bound:
        """A bound."""
        first = self.peek()
        sign = ""
        if first.kind == "sign" and first.text in "+-":
            sign = self.take().text
        t, raw = self.literal()
        return Bound(sign == "-", raw, first, sign + t.text)

    def operand(self) -> Operand:
        """A name or a literal."""
        t = self.peek()
        if t.kind == "literal":
            t, raw = self.literal()
            return ("lit", t.text, raw.value())
        t = self.name()
        if t.text not in self.names:
            self.refuse(5, t.start)
        return ("name", t.text)

    def input(self) -> None:
        """`in name : format [lo,hi];`."""
        self.take()
        t = self.name()
        self.new_name(t, 2)
        self.expect(":")
        f = self.format()
        self.expect("[")
        lo = self.bound()
        self.inside(lo, f)
        self.expect(",")
        hi = self.bound()
        self.inside(hi, f)
        # a literal past its limits is compared with nothing
        if lo.raw.fits and hi.raw.fits and hi.value < lo.value:
            self.refuse(7, hi.first.start)
        self.expect("]")
        self.expect(";")
        self.names.add(t.text)
        self.inputs.append((t.text, f, lo, hi))

    def inside(self, b: Bound, f: Format) -> None:
        """An end of a range has to be between the format's least and greatest value."""
        if f.fits and b.raw.fits and not f.value(f.least) <= b.value <= f.value(f.greatest):
            self.refuse(7, b.first.start)

    def step(self) -> None:
        """`name : format direction = operation;`."""
        t = self.name()
        self.new_name(t, 1)
        self.expect(":")
        f = self.format()
        d = self.peek()
        if d.kind not in ("name", "reserved"):
            self.unexpected()
        self.take()
        if d.text not in DIRECTIONS:
            self.refuse(9, d.start)
        self.expect("=")
        if self.peek().kind == "sign" and self.peek().text == "-":
            self.take()
            op = ("-", self.operand(), None)
        else:
            a = self.operand()
            s = self.peek()
            if s.kind == "sign" and s.text in ("+", "-", "*"):
                self.take()
                op = (s.text, a, self.operand())
                op = ("sub",) + op[1:] if s.text == "-" else op
            elif s.kind == "sign" and s.text in (">>", "<<"):
                self.take()
                k = self.peek()
                if k.kind != "literal" or not DIGITS.fullmatch(k.text):
                    self.unexpected()
                self.take()
                n = int(k.text)
                if n > 63:
                    self.refuse(10, k.start)
                op = (s.text, a, n)
            else:
                op = ("copy", a, None)
        self.expect(";")
        self.names.add(t.text)
        self.steps.append((t.text, f, d.text, op))

    def output(self) -> None:
        """`out name;`."""
        self.take()
        t = self.name()
        if t.text not in self.names:
            self.refuse(5, t.start)
        self.weigh(t, 1)
        self.expect(";")
        self.outputs.append(t.text)

    def read(self) -> None:
        """The whole program, or up to where the reading ends."""
        while self.peek().kind == "reserved" and self.peek().text == "in":
            self.input()
        while self.peek().kind == "name":
            self.step()
        while self.peek().kind == "reserved" and self.peek().text == "out":
            self.output()
        if not self.outputs or self.peek().kind != "end":
            self.unexpected()


def parse(data: bytes) -> Parser:
    """The program; raises Refusal with the kind and offset of its fault."""
    p = Parser(decode(data, TEXT_LIMIT))
    try:
        p.read()
    except Stop:
        pass
    found = p.first_refusal(KINDS)
    if found:
        raise Refusal(found[0], found[1])
    return p


def operation_text(op: Operation) -> str:
    """OP of the script's line."""
    sign, a, b = op
    a = a[1]
    if sign == "-":
        return "-" + a
    if sign == "copy":
        return a
    if sign == ">>":
        return "%s * 1b-%d" % (a, b)
    if sign == "<<":
        return "%s * 1b%d" % (a, b)
    return "%s %s %s" % (a, "-" if sign == "sub" else sign, b[1])


def turned(program: Parser) -> str:
    """The script's text."""
    lines = []
    for name, f, d, op in program.steps:
        lines.append("%s = fixed<%s,%s>(%s);" % (name, f.lsb(), d, operation_text(op)))
    hyps = ["%s in [%s, %s] /\\ @FIX(%s,%s)" % (n, lo.text, hi.text, n, f.lsb())
            for n, f, lo, hi in program.inputs]
    goals = ["%s in [%s, %s]" % (n, f.written(f.least), f.written(f.greatest))
             for n, f, _, _ in program.steps]
    goals += ["%s in ?" % n for n in program.outputs]
    head = " /\\ ".join(hyps) + " -> " if hyps else ""
    lines.append("{ %s%s }" % (head, " /\\ ".join(goals)))
    return "".join(line + "\n" for line in lines)


def execute(program: Parser, words: Dict[str, int]) -> Union[Dict[str, Fraction], str]:
    """The value of each name in a run on these words, or the name of the step that wraps."""
    values = {}
    for name, f, _, _ in program.inputs:
        values[name] = f.value(words[name])

    def value(x: Operand) -> Fraction:
        """The value of an operand."""
        return values[x[1]] if x[0] == "name" else x[2]

    for name, f, d, (sign, a, b) in program.steps:
        x = value(a)
        if sign == "-":
            x = -x
        elif sign == ">>":
            x = x / 2 ** b
        elif sign == "<<":
            x = x * 2 ** b
        elif sign == "+":
            x = x + value(b)
        elif sign == "sub":
            x = x - value(b)
        elif sign == "*":
            x = x * value(b)
        x = round_fraction(d, -f.f, x)
        if not f.value(f.least) <= x <= f.value(f.greatest):
            return name
        values[name] = x
    return values
