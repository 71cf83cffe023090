#!/usr/bin/env python3
"""What `prove` knows of single goals in one box, after few rounds or many: status and lines.

    tools/compare/roots.py COUNT SEED [JOBS] [--program PROGRAM]

Words and counts are those of runs.py. Scripts have roundings, relative errors, products,
quotients and rewriting hints. A case is one script with up to six goals `.. in ?`, each of which
is proved alone: the line shows the strongest fact of one expression or pair, and an open goal
hides no other one.
"""

import sys

import runs
import texts

LITERALS = ["1", "2", "3", "0.5", "0.1", "3b-4", "1b-10", "48b-6", "11b-6", "10", "0.75", "5b-3",
            "100", "7", "0.001"]


class RootMaker(texts.Maker):
    """A script but for its goal: its definitions, its hypotheses and its hints."""

    def __init__(self, rng):
        super().__init__(rng)
        self.variables = ["x", "y", "z", "w"][:rng.randint(1, 4)]
        self.names, self.operators, self.pairs = list(self.variables), [], []
        self.definitions = self.some_operators() + self.some_values()
        given = ["%s in %s" % (v, self.interval()) for v in self.variables if self.maybe(0.9)]
        self.hypotheses = given + [self.hypothesis() for _ in range(rng.randint(0, 2))]
        self.hints = "".join(self.hint() for _ in range(rng.randint(0, 2)))

    def expr(self, depth):
        k = self.rng.random()
        if depth == 0 or k < 0.25:
            return self.pick(self.names) if self.maybe(0.8) else self.pick(LITERALS)
        a, b = self.expr(depth - 1), self.expr(depth - 1)
        if k < 0.5:
            return "(%s %s %s)" % (a, self.pick("+-"), b)
        if k < 0.7:
            return "(%s) * (%s)" % (a, b)
        if k < 0.78:
            return "(%s) / (%s)" % (a, b)
        if k < 0.83:
            return "|%s|" % a
        if k < 0.87:
            return "(-(%s))" % a
        return "%s(%s)" % (self.pick(self.operators + [""]), a)

    def interval(self):
        low = self.rng.randint(-40, 40)
        high = low + self.rng.randint(0, 30)
        e = self.pick([-6, -4, -3, -2, 0, 1])
        return "[%db%d,%db%d]" % (low, e, high, e)

    def relative(self):
        ends = tuple(self.rng.randint(low, high) for low, high in ((1, 7), (3, 9), (1, 7), (3, 9)))
        return "%s -/ %s in [-%db-%d,%db-%d]" % ((self.expr(1), self.expr(1)) + ends)

    def hypothesis(self):
        k = self.rng.random()
        if k < 0.3:
            return self.relative()
        if k < 0.5:
            return "@FIX(%s,%d)" % (self.expr(1), self.rng.randint(-8, 3))
        if k < 0.7:
            ends = self.rng.randint(0, 9), self.rng.randint(2, 9)
            return "|%s| in [%db-3,%d]" % ((self.expr(1),) + ends)
        if k < 0.85:
            return "%s %s %s" % (self.expr(1), self.pick(["<=", ">="]), self.pick(LITERALS))
        return "%s in %s" % (self.expr(1), self.interval())

    def hint(self):
        k = self.rng.random()
        if k < 0.5:
            a = self.expr(2)
            need = " { %s <> 0 }" % self.pick(self.names) if self.maybe(0.4) else ""
            return " %s -> %s%s;" % (a, a if self.maybe(0.2) else self.expr(2), need)
        x, y, z = self.expr(1), self.expr(1), self.expr(1)
        if k < 0.7:
            return " (%s) * (%s) + (%s) * (%s) -> (%s) * ((%s) + (%s));" % (x, z, y, z, z, x, y)
        return " %s ~ %s;" % (x, y)

    def some_operators(self):
        out = ""
        for k in range(self.rng.randint(0, 2)):
            kind = "int<%s>" % self.pick(texts.DIRECTIONS)
            if self.maybe(0.8):
                kind = "fixed<%d,%s>" % (self.rng.randint(-8, 2), self.pick(texts.DIRECTIONS))
            out += "@r%d = %s;" % (k, kind)
            self.operators.append("r%d" % k)
        return out

    def some_values(self):
        out = ""
        for k in range(self.rng.randint(0, 4)):
            name, e = "d%d" % k, self.expr(2)
            rounded = self.operators and self.maybe(0.4)
            out += " %s %s= %s;" % (name, self.pick(self.operators) if rounded else "", e)
            self.names.append(name)
            if rounded and self.maybe(0.6):
                out += " M%s = %s;" % (name, e)
                self.names.append("M" + name)
                self.pairs.append((name, "M" + name))
        return out

    def goals(self):
        """Expressions of goals: names, differences, relative errors and others."""
        out = [name for name in self.names if name not in self.variables]
        for a, b in self.pairs:
            out += ["%s - %s" % (a, b), "%s -/ %s" % (a, b)]
        out += [self.expr(2), "|%s|" % self.expr(1), "%s -/ %s" % (self.expr(1), self.expr(1))]
        return self.rng.sample(out, min(6, len(out)))

    def script(self, goal):
        given = " /\\ ".join(self.hypotheses) + " -> " if self.hypotheses else ""
        return "%s { %s%s in ? }%s" % (self.definitions, given, goal, self.hints)


def rows(case):
    maker = RootMaker(case.rng)
    rounds = str(case.rng.choice([1, 2, 3, 5, 20, 20, 20, 64]))
    for goal in maker.goals():
        yield maker.script(goal).encode(), rounds


def compare(case, text, rounds):
    words = ["prove", "a", "--depth", "0", "--boxes", "64", "--rounds", rounds]
    return "status %d" % case.agrees({"a": text}, words).status


if __name__ == "__main__":
    sys.exit(runs.main(rows, compare))
