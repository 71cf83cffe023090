"""Random fixed-point routines, in the words that both `fixprove` and Gappa read.

`routine(seed, number)` is a script's text, the same one in each run. There are six kinds, in turn:
steps, a filter's sum, a polynomial in Horner's form, one step of a recursive filter, a quotient and
a clip. Each rounds its operations, has a twin without roundings, and asks for the error, the range
or the relative error. About a third have a goal with bounds: what corners and 20 points reach,
widened by a share of its width. No minus stands before a product: the two read that otherwise.
"""

import random
from fractions import Fraction

from script_text import Script, rounded

DIRECTIONS = ("dn", "dn", "ne", "ne", "nu", "zr", "na", "up")
RANGES = (("-1", "1"), ("0", "1"), ("0.5", "1"), ("-2", "2"), ("1", "2"), ("0", "100"),
          ("-1", "32767b-15"), ("0.25", "0.75"), ("-8", "8"))


class Routine:
    """The parts of one script while it is made."""

    def __init__(self, chance):
        self.chance = chance
        self.head, self.claims, self.goals, self.hints = [], [], [], []
        self.unit = chance.choice((-8, -10, -12, -15, -15, -16, -20))

    def operator(self, name="q"):
        """Defines an operator."""
        way = self.chance.choice(DIRECTIONS)
        self.head.append("@%s = fixed<%d,%s>;" % (name, self.unit, way))

    def input(self, name, ranges=RANGES):
        """A variable with a range, and mostly its grid."""
        low, high = self.chance.choice(ranges)
        self.claims.append("%s in [%s,%s]" % (name, low, high))
        if self.chance.random() < 0.7:
            self.claims.append("@FIX(%s,%d)" % (name, self.unit))

    def coefficient(self):
        """A number of a few bits, with its sign."""
        bits = self.chance.choice((3, 6, 10, 14))
        return "%s%db-%d" % (self.chance.choice(("", "", "-")),
                             self.chance.randrange(1, 2 << bits), bits)

    def named(self, name, rounded_text, exact_text):
        """Defines a value and its twin."""
        self.head += ["%s = %s;" % (name, rounded_text), "%s = %s;" % (name.upper(), exact_text)]

    def asks(self, name):
        """Goals of a value that has a twin."""
        twin = name.upper()
        self.goals.append("%s - %s in ?" % (name, twin))
        if self.chance.random() < 0.5:
            self.goals.append("%s in ?" % name)

    def text(self):
        """The script."""
        lines = self.head + ["{ %s\n  -> %s }" % (" /\\ ".join(self.claims),
                                                 " /\\ ".join(self.goals))] + self.hints
        return "\n".join(lines) + "\n"


def steps(one):
    """Operations in a row on some inputs."""
    chance, names = one.chance, ["x", "z", "w"][:one.chance.randint(1, 3)]
    one.operator()
    for name in names:
        one.input(name)
    last = None
    for k in range(chance.randint(2, 6)):
        a = last or chance.choice(names)
        b = chance.choice(names)
        form = chance.choice(("%s + %s", "%s - %s", "%s * %s", "%s * (1 - %s)", "%s * C + %s",
                              "%s * 1b-1 + %s", "C - %s * %s"))
        form = form.replace("C", one.coefficient())
        plain = chance.random() < 0.2
        made = form % (a, b)
        one.named("v%d" % k, made if plain else "q(%s)" % made,
                  form % (a.upper() if a == last else a, b))
        last = "v%d" % k
    one.asks(last)


def fir(one):
    """A sum of products, each rounded or the sum alone."""
    chance, count = one.chance, one.chance.randint(2, 7)
    one.operator()
    names = ["x%d" % k for k in range(count)]
    pairs = [(one.coefficient(), name) for name in names]
    low_high = (chance.choice(RANGES),)
    for name in names:
        one.input(name, low_high)
    exact = " + ".join("%s * %s" % pair for pair in pairs)
    each = " + ".join("q(%s * %s)" % pair for pair in pairs)
    one.named("y", each if chance.random() < 0.5 else "q(%s)" % exact, exact)
    one.asks("y")


def horner(one):
    """A polynomial of one variable."""
    chance = one.chance
    one.operator()
    one.input("x", (("0", "1"), ("-1", "1"), ("0.5", "1"), ("-0.5", "0.5")))
    body = exact = one.coefficient()
    for _ in range(chance.randint(2, 5)):
        c = one.coefficient()
        body = "q(%s * x) + %s" % ("(%s)" % body if " " in body else body, c)
        exact = "%s * x + %s" % ("(%s)" % exact if " " in exact else exact, c)
    one.named("y", body, exact)
    one.asks("y")
    if chance.random() < 0.25:
        one.hints.append("$ x in %d;" % chance.choice((4, 8, 16)))


def recursive(one):
    """One step of a filter whose states have errors."""
    one.operator()
    one.input("x")
    terms, exact = ["%s * x" % one.coefficient()], []
    exact.append(terms[0])
    for k in range(one.chance.randint(1, 3)):
        c = one.coefficient()
        one.input("y%d" % k, (("-4", "4"), ("-1", "1")))
        one.claims.append("y%d - s%d in [-%db%d,%db%d]" % (
            (k, k) + (one.chance.randint(1, 9), one.unit) * 2))
        terms.append("%s * y%d" % (c, k))
        exact.append("%s * s%d" % (c, k))
    one.named("u", "q(%s)" % " + ".join(terms), " + ".join(exact))
    one.asks("u")


def quotient(one):
    """A rounded quotient of sums of positive values."""
    one.operator()
    one.input("n", (("1", "2"), ("0.5", "100"), ("1b-4", "1")))
    one.input("d", (("1", "2"), ("0.5", "1"), ("3", "50")))
    c = "%db-4" % one.chance.randint(1, 40)
    form = one.chance.choice(("n / d", "(n + C) / d", "n / (d + C)", "n * C / d"))
    form = form.replace("C", c)
    one.named("r", "q(%s)" % form, form)
    one.goals.append(one.chance.choice(("r - R in ?", "r -/ R in ?")))
    one.goals += ["r in ?"] if one.chance.random() < 0.5 else []


def clip(one):
    """A value that a branch limits."""
    one.operator()
    one.input("x")
    one.input("g", (("0", "1"), ("0.5", "2")))
    top = "%db-2" % one.chance.randint(1, 12)
    one.named("v", "q(g * x)", "g * x")
    one.claims[-1] += "\n  -> v <= %s /\\ y - v in [0,0] \\/ v >= %s /\\ y in [%s,%s]" % (
        (top,) * 4)
    one.goals += ["y in ?", "v - V in ?"]


KINDS = (steps, fir, horner, recursive, quotient, clip)


def routine(seed, number):
    """The text of a script: number counts from 1."""
    kind = KINDS[(number - 1) % len(KINDS)]
    chance = random.Random("%d/%d" % (seed, number))
    while True:
        one = Routine(chance)
        kind(one)
        text = one.text()
        if kind is clip or chance.random() > 0.35:
            return text
        name, script = one.goals[0].split(" ")[0], Script(text)
        found = [script.value(script.defined[name], point)
                 for point in corners(script) + list(script.points(20, seed + number))]
        found = [value for value in found if value is not None]
        low, high = min(found), max(found)
        slack = (high - low) * chance.choice((Fraction(1, 4), Fraction(1, 16), Fraction(1, 64)))
        low, high = rounded("dn", one.unit, low - slack), rounded("up", one.unit, high + slack)
        bounds = "%s in [%s,%s]" % (name, spelled(low, one.unit), spelled(high, one.unit))
        only = chance.random() < 0.5
        one.goals = [bounds] if only else one.goals[:1] + [bounds]
        return one.text()


def corners(script):
    """The points at which each variable is at an end of its range."""
    found = [{}]
    for name, ends in script.ranges().items():
        found = [dict(point, **{name: end}) for point in found for end in ends]
    return [dict({other: 0 for other in script.variables}, **point) for point in found]


def spelled(value, power):
    """A multiple of 2^power as a literal."""
    return "%db%d" % (value / Fraction(2) ** power, power)
