"""The certificate's bytes, versions 1 and 2: docs/FORMATS.md, "Certificates".

An item is a tuple: ("Nodes", n), ("Node", node), ("Marks", n), ("Mark", checked), ("Cases", n),
("Step", rule, arg, fact, with, premises), ("Cut", node, points), ("Leaf", steps), ("Dead", step)
or ("End",).
"""

from __future__ import annotations

from typing import Any, Callable, Iterable, List, Optional, Tuple

from . import literal
from .dag import Node
from .facts import NONE, VOID, Fact
from .grid import HIGH, LOW, ONE, Interval, canonical, from_parts
from .rounding import DIRECTIONS

Item = Tuple[Any, ...]

MAGIC = b"FXPC"
TAGS = ["var", "lit", "neg", "add", "sub", "mul", "div", "abs", "rnd"]


class CertFault(Exception):
    """The first fault of the bytes: "Certificates", the first table of faults."""

    def __init__(self, kind: str, at: int) -> None:
        """The fault's kind and its byte."""
        Exception.__init__(self, kind, at)
        self.kind, self.at = kind, at


# -- writing


class Writer:
    """Appends items in one version's spelling."""

    def __init__(self, version: int) -> None:
        """Begins with the head."""
        self.version = version
        self.out = bytearray(MAGIC + bytes([version]))
        self.steps = self.sections = 0

    def number(self, v: int, width: int) -> None:
        """A number from 0, in `width` bytes of version 1."""
        if self.version == 1:
            self.out += v.to_bytes(width, "big")
            return
        while v >= 128:
            self.out.append(v & 127 | 128)
            v >>= 7
        self.out.append(v)

    def signed(self, v: int, width: int) -> None:
        """A mantissa or an exponent."""
        if self.version == 1:
            self.out += v.to_bytes(width, "big", signed=True)
        else:
            self.number(2 * v if v >= 0 else -2 * v - 1, width)

    def reference(self, p: int) -> None:
        """The number of a step that an item cites."""
        if self.version == 1:
            self.number(p, 8)
        else:
            self.number((self.steps - p) % (1 << 64), 8)

    def point(self, x: int) -> None:
        """A grid number: its mantissa and its exponent."""
        m, e = canonical(x)
        self.signed(m, 8)
        self.signed(e, 2)

    def interval(self, i: Interval) -> None:
        """Two ends, each with its tag."""
        for x in i:
            if x == LOW:
                self.out.append(1)
            elif x == HIGH:
                self.out.append(2)
            else:
                self.out.append(0)
                self.point(x)

    def fact(self, f: Fact) -> None:
        """A fact: its tag, its expressions and its value."""
        slot, v = f
        kind = slot[0]
        self.out.append(" BARFNV".index(kind))
        for x in slot[1:]:
            self.number(x, 2)
        if kind in "BA":
            self.interval(v)
        elif kind == "R":
            if v == NONE:
                self.out.append(1)
            else:
                self.out.append(0)
                self.interval(v)
        elif kind == "F":
            self.signed(v, 2)

    def item(self, item: Item) -> None:
        """Appends one item."""
        tag = item[0]
        out = self.out
        if tag in ("Nodes", "Marks"):
            self.number(item[1], 2)
        elif tag == "Node":
            node = item[1]
            t = TAGS.index(node[0])
            out.append(t)
            if t == 1:
                self.number(node[1], 16)
                self.signed(node[2], 2)
                self.signed(node[3], 2)
            elif t == 8:
                out.append(DIRECTIONS.index(node[1]))
                self.signed(node[2], 2)
                self.number(node[3], 2)
            else:
                for x in node[1:]:
                    self.number(x, 2)
        elif tag == "Mark":
            out.append(0 if item[1] else 1)
        elif tag == "Cases":
            out.append(5)
            self.number(item[1], 1)
        elif tag == "Step":
            _, rule, arg, fact, with_, premises = item
            out.append(1)
            out.append(rule)
            self.number(arg, 2)
            self.fact(fact)
            if with_ is None:
                out.append(0)
            else:
                out.append(1)
                self.reference(with_)
            self.number(len(premises), 2)
            for p in premises:
                self.reference(p)
            self.steps += 1
        elif tag == "Cut":
            out.append(2)
            self.number(item[1], 2)
            self.number(len(item[2]), 1)
            for x in item[2]:
                self.point(x)
            self.sections += 1
        elif tag == "Leaf":
            out.append(3)
            self.number(len(item[1]), 2)
            for p in item[1]:
                self.reference(p)
            self.sections += 1
        elif tag == "Dead":
            out.append(4)
            self.reference(item[1])
            self.sections += 1
        elif self.version == 2:
            out.append(6)
            self.number(self.sections, 8)
            self.number(self.steps, 8)


def write(items: Iterable[Item], version: int) -> bytes:
    """The bytes of the items in one version."""
    w = Writer(version)
    for i in items:
        w.item(i)
    return bytes(w.out)


# -- reading


class Reader:
    """Gives the items one by one; raises the CertFault where there is one."""

    def __init__(self, data: bytes) -> None:
        """Stands before the head."""
        self.data = data
        self.at = 0
        self.version = None
        self.steps = self.sections = 0
        self.waiting = None         # sections left, innermost last
        self.phase = "nodes"
        self.left = 0

    def truncated(self) -> None:
        """The bytes end too early."""
        raise CertFault("Truncated", len(self.data))

    def bytes(self, n: int) -> bytes:
        """The next n bytes."""
        if self.at + n > len(self.data):
            self.truncated()
        piece = self.data[self.at:self.at + n]
        self.at += n
        return piece

    def tag(self, most: int, least: int = 0) -> int:
        """A byte that tells what follows, in this range."""
        at = self.at
        (b,) = self.bytes(1)
        if not least <= b <= most:
            raise CertFault("BadTag", at)
        return b

    def number(self, width: int) -> int:
        """A whole number from 0 that fits `width` bytes."""
        if self.version == 1:
            return int.from_bytes(self.bytes(width), "big")
        at = self.at
        most = 19 if width == 16 else 10
        v = 0
        for k in range(most):
            (b,) = self.bytes(1)
            v |= (b & 127) << (7 * k)
            if b < 128:
                if (b == 0 and k > 0) or v >= 1 << (8 * width):
                    raise CertFault("BadNumber", at)
                return v
        raise CertFault("BadNumber", at)

    def signed(self, width: int) -> int:
        """A mantissa or an exponent."""
        if self.version == 1:
            return int.from_bytes(self.bytes(width), "big", signed=True)
        at = self.at
        # the spelling of v takes one bit more than v's magnitude
        z = self.number_any(at)
        v = z >> 1 if z % 2 == 0 else -(z >> 1) - 1
        if not -(1 << (8 * width - 1)) <= v < 1 << (8 * width - 1):
            raise CertFault("BadNumber", at)
        return v

    def number_any(self, at: int) -> int:
        """A number of at most ten bytes of version 2, whatever it is; its fault stands at `at`."""
        v = 0
        for k in range(10):
            (b,) = self.bytes(1)
            v |= (b & 127) << (7 * k)
            if b < 128:
                if b == 0 and k > 0:
                    raise CertFault("BadNumber", at)
                return v
        raise CertFault("BadNumber", at)

    def reference(self) -> int:
        """The number of a step that an item cites."""
        v = self.number(8)
        return v if self.version == 1 else (self.steps - v) % (1 << 64)

    def bad(self, at: int) -> None:
        """A number that isn't in its range or form."""
        raise CertFault("BadNumber", at)

    def point(self) -> int:
        """A grid number in the form in which it is kept."""
        at = self.at
        m = self.signed(8)
        e = self.signed(2)
        x = from_parts(m, e)
        if x is None:
            self.bad(at)
        return x

    def interval(self, lowest: Optional[Callable[[int], bool]] = None) -> Interval:
        """Two ends that make an interval, the lower one as `lowest` asks."""
        at = self.at
        ends = []
        for _ in range(2):
            t = self.tag(2)
            ends.append(self.point() if t == 0 else LOW if t == 1 else HIGH)
        lo, hi = ends
        if lo == HIGH or hi == LOW or lo > hi:
            self.bad(at)
        if lowest is not None and not lowest(lo):
            self.bad(at)
        return (lo, hi)

    def fact(self) -> Fact:
        """A fact."""
        t = self.tag(6, 1)
        if t == 6:
            return VOID
        x = self.number(2)
        if t == 3:
            y = self.number(2)
            if self.tag(1):
                return (("R", x, y), NONE)
            return (("R", x, y), self.interval(lambda lo: lo > -ONE))
        if t == 1:
            return (("B", x), self.interval())
        if t == 2:
            return (("A", x), self.interval(lambda lo: lo >= 0))
        if t == 4:
            at = self.at
            k = self.signed(2)
            if not -1024 <= k <= 512:
                self.bad(at)
            return (("F", x), k)
        return (("N", x), True)

    def node(self) -> Node:
        """A node, as `dag` has it."""
        t = self.tag(8)
        name = TAGS[t]
        if t == 1:
            at = self.at
            lit = (self.number(16), self.signed(2), self.signed(2))
            if not literal.is_normal(lit):
                self.bad(at)
            return ("lit",) + lit
        if t == 8:
            d = DIRECTIONS[self.tag(10)]
            at = self.at
            lsb = self.signed(2)
            if not -512 <= lsb <= 512:
                self.bad(at)
            return ("rnd", d, lsb, self.number(2))
        if t in (0, 2, 7):
            return (name, self.number(2))
        return (name, self.number(2), self.number(2))

    def head(self) -> None:
        """The four first bytes and the version."""
        if len(self.data) < 4:
            self.truncated()
        if self.data[:4] != MAGIC:
            raise CertFault("BadMagic", 0)
        if len(self.data) < 5:
            self.truncated()
        if self.data[4] not in (1, 2):
            raise CertFault("BadVersion", 4)
        self.version = self.data[4]
        self.at = 5

    def end_section(self) -> None:
        """A leaf or dead end; closes the cuts whose last piece it was."""
        self.sections += 1
        while self.waiting:
            self.waiting[-1] -= 1
            if self.waiting[-1]:
                return
            self.waiting.pop()

    def next(self) -> Item:
        """The next item; the last is ("End",)."""
        if self.version is None:
            self.head()
        if self.phase == "nodes":
            self.left = self.number(2)
            self.phase = "node"
            return ("Nodes", self.left)
        if self.phase == "node":
            if self.left:
                self.left -= 1
                return ("Node", self.node())
            self.left = self.number(2)
            self.phase = "mark"
            return ("Marks", self.left)
        if self.phase == "mark":
            if self.left:
                self.left -= 1
                return ("Mark", self.tag(1) == 0)
            self.phase = "section"
            self.waiting = [1]
            if self.at < len(self.data) and self.data[self.at] == 5:
                self.at += 1
                at = self.at
                n = self.number(1)
                if not 2 <= n <= 64:
                    self.bad(at)
                self.waiting = [n]
                return ("Cases", n)
        if not self.waiting:
            return self.end()
        t = self.tag(4, 1)
        if t == 1:
            (rule,) = self.bytes(1)
            arg = self.number(2)
            fact = self.fact()
            with_ = self.reference() if self.tag(1) else None
            premises = tuple(self.reference() for _ in range(self.number(2)))
            self.steps += 1
            return ("Step", rule, arg, fact, with_, premises)
        if t == 2:
            node = self.number(2)
            at = self.at
            n = self.number(1)
            if not 1 <= n <= 63:
                self.bad(at)
            points = []
            for _ in range(n):
                at = self.at
                p = self.point()
                if points and p <= points[-1]:
                    self.bad(at)
                points.append(p)
            self.sections += 1
            self.waiting.append(n + 1)
            return ("Cut", node, points)
        if t == 3:
            refs = [self.reference() for _ in range(self.number(2))]
            self.end_section()
            return ("Leaf", refs)
        p = self.reference()
        self.end_section()
        return ("Dead", p)

    def end(self) -> Item:
        """What stands after the last root section."""
        if self.version == 2 and self.phase != "end":
            self.tag(6, 6)
            for wanted in (self.sections, self.steps):
                at = self.at
                if self.number(8) != wanted:
                    raise CertFault("BadCount", at)
        self.phase = "end"
        if self.at < len(self.data):
            raise CertFault("TrailingBytes", self.at)
        return ("End",)


def read(data: bytes) -> List[Item]:
    """All items; raises the CertFault."""
    r = Reader(data)
    items = []
    while True:
        i = r.next()
        items.append(i)
        if i[0] == "End":
            return items
