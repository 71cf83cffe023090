"""The bytes of certificates in both versions, as items: docs/FORMATS.md, "Certificates"."""
from .grid import DIRECTIONS, INF, UNIT
from .rules import NONE, VOID

KINDS = ("var", "lit", "neg", "add", "sub", "mul", "div", "abs", "rnd")
FACTS = ("", "BND", "ABS", "REL", "FIX", "NZR")


class Fault(Exception):
    """Why a certificate isn't accepted, as `check` prints it."""


def is_literal(number, two, ten):
    """Whether these are the normal form of a literal within its limits."""
    if number == 0 or two and ten:
        return number == two == ten == 0
    # the literal may be written with zeros at its end, and a lower power
    decimal = two == 0 and number % 10 and any(
        number * 10 ** k < 10 ** 30 and -30 <= ten - k <= 8 for k in range(30))
    return bool(decimal) or number % 2 == 1 and ten == 0 and any(
        number << k < 2 ** 100 and -512 <= two - k <= 512 for k in range(100))


class Reader:
    """The items of a certificate; raises Fault at the first fault of the bytes."""

    def __init__(self, data):
        self.data, self.at, self.steps, self.sections = data, 0, 0, 0

    def bad(self, at, kind="BadNumber"):
        """Raises the fault at this byte."""
        raise Fault("%s at %d" % (kind, at))

    def byte(self):
        """The next byte; one past the end is an IndexError, which `items` tells."""
        self.at += 1
        return self.data[self.at - 1]

    def tag(self, least, most):
        """A byte that tells what follows, in this range."""
        found = self.byte()
        return found if least <= found <= most else self.bad(self.at - 1, "BadTag")

    def number(self, size, signed=False):
        """A number that has `size` bytes in version 1."""
        at, found = self.at, self.data[self.at]
        if self.version == 1:
            self.at += size - 1
            self.byte()
            return int.from_bytes(self.data[at:self.at], "big", signed=signed)
        self.at += 1
        if found > 127:
            byte, found, shift = found, found & 127, 7
            while byte > 127 and shift < (133 if size == 16 else 70):
                byte = self.byte()
                found, shift = found | (byte & 127) << shift, shift + 7
            if byte > 127 or byte == 0 or found >= 256 ** size:
                self.bad(at)
        return found if not signed else -(found + 1 >> 1) if found % 2 else found >> 1

    def ranged(self, least, most, size=2):
        """A number in a range."""
        at = self.at
        found = self.number(size, least < 0)
        return found if least <= found <= most else self.bad(at)

    def step(self):
        """The number of a step that an item cites."""
        found = self.number(8)
        return found if self.version == 1 else (self.steps - found) % 2 ** 64

    def point(self):
        """A number of the grid, in units."""
        at = self.at
        mantissa, power = self.number(8, True), self.number(2, True)
        if (mantissa, power) != (0, 0) and (mantissa % 2 == 0 or not -512 <= power <= 571 or (
                abs(mantissa) << max(0, power - 512)) >= 2 ** 60):
            self.bad(at)
        return mantissa << (power + 512)

    def interval(self, least):
        """An interval whose lower end is at least this."""
        at = self.at
        low, high = [self.point() if tag == 0 else -INF if tag == 1 else INF
                     for tag in (self.tag(0, 2) for _ in range(2))]
        if low > high or low == INF or high == -INF or low < least:
            self.bad(at)
        return low, high

    def node(self):
        """A node, as scripts have them."""
        kind = KINDS[self.tag(0, 8)]
        if kind == "lit":
            at = self.at
            literal = self.number(16), self.number(2, True), self.number(2, True)
            return (kind,) + literal if is_literal(*literal) else self.bad(at)
        if kind == "rnd":
            return kind, DIRECTIONS[self.tag(0, 10)], self.ranged(-512, 512), self.number(2)
        one = kind in ("var", "neg", "abs")
        return (kind, self.number(2)) if one else (kind, self.number(2), self.number(2))

    def fact(self):
        """A fact: its slot and its value."""
        tag = self.tag(1, 6)
        if tag == 6:
            return VOID
        slot = (FACTS[tag], self.number(2))
        if slot[0] == "REL":
            slot += (self.number(2),)
            return slot, NONE if self.tag(0, 1) else self.interval(1 - UNIT)
        if slot[0] in ("FIX", "NZR"):
            return slot, slot[0] == "NZR" or self.ranged(-1024, 512)
        return slot, self.interval(0 if slot[0] == "ABS" else -INF)

    def items(self):
        """Each item as soon as its bytes are read, as a tuple that begins with its kind."""
        try:
            yield from self.parts()
        except IndexError:
            self.bad(len(self.data), "Truncated")

    def parts(self):
        """The items, up to an IndexError if the bytes end inside one."""
        if [self.byte() for _ in range(4)] != list(b"FXPC"):
            self.bad(0, "BadMagic")
        self.version = self.byte()
        if self.version not in (1, 2):
            self.bad(4, "BadVersion")
        for kind, read in (("node", self.node), ("mark", lambda: self.tag(0, 1))):
            many = self.number(2)
            yield kind + "s", many
            for _ in range(many):
                yield kind, read()
        left = 1
        if self.data[self.at:self.at + 1] == b"\5":
            self.at += 1
            left = self.ranged(2, 64, 1)
            yield "cases", left
        while left:
            tag = self.tag(1, 4)
            if tag == 1:
                rule, arg, fact = self.byte(), self.number(2), self.fact()
                met = self.step() if self.tag(0, 1) else None
                yield "step", rule, arg, fact, met, [self.step() for _ in range(self.number(2))]
                self.steps += 1
                continue
            if tag == 2:
                variable, points = self.number(2), []
                for _ in range(self.ranged(1, 63, 1)):
                    at = self.at
                    points.append(self.point())
                    if points[-1:] <= points[-2:-1]:
                        self.bad(at)
                yield "cut", variable, points
                left += len(points) + 1
            else:
                many = self.number(2) if tag == 3 else 1
                yield "leaf" if tag == 3 else "dead", [self.step() for _ in range(many)]
            self.sections += 1
            left -= 1
        if self.version == 2:
            self.tag(6, 6)
            for wanted in (self.sections, self.steps):
                at = self.at
                if self.number(8) != wanted:
                    self.bad(at, "BadCount")
        if self.at < len(self.data):
            self.bad(self.at, "TrailingBytes")
