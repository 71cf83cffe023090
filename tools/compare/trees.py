#!/usr/bin/env python3
"""What `prove` makes of scripts with cuts and halves: status, lines, and the certificate's tree.

    tools/compare/trees.py COUNT SEED [JOBS] [--program PROGRAM]

Words and counts are those of runs.py. Each variable has some ranges, and hints cut them in
pieces, at points or by halves. Depth and boxes are random, so that some trees have no room. Of a
script that is proved the trees in both certificates are compared: cuts with their points, leaves,
dead ends, cases and marks. Steps aren't, since more than one certificate may do.
"""

import sys

import runs
import texts


class TreeMaker(texts.Maker):
    """A script with ranges of few variables, and with hints that cut them."""

    def __init__(self, rng):
        super().__init__(rng)
        self.names = ["x", "y", "z", "u"][:rng.randint(1, 4)]
        self.ranges = {name: [self.ends() for _ in range(self.pick([1, 1, 1, 2]))]
                       for name in self.names}
        self.has_cases = self.maybe(0.2)

    def literal(self):
        k = self.rng.random()
        n = self.rng.randrange(0, 200)
        if k < 0.4:
            return "%d" % n
        if k < 0.7:
            least = -520 if self.maybe(0.01) else -9
            return "%db%d" % (n, self.rng.randrange(least, 4))
        return "%d.%02d" % (n % 20, self.rng.randrange(100))

    def end(self):
        return ("-" if self.maybe(0.4) else "") + self.literal()

    def ends(self):
        ends = [self.end(), self.end()]
        return sorted(ends, key=texts.signed_value) if self.maybe(0.97) else ends

    def claims(self):
        out = []
        for name in self.names:
            if self.maybe(0.2):
                out.append("%s >= -%s" % (name, self.literal()))
            out += ["%s in [%s,%s]" % (name, *ends) for ends in self.ranges[name]]
        if self.maybe(0.3):
            # so that some boxes are empty
            out.append("%s * %s >= %s" % (self.pick(self.names), self.pick(self.names), self.end()))
        self.rng.shuffle(out)
        return out

    def goal(self):
        x = self.pick(self.names)
        y = "v" if self.has_cases and self.maybe(0.5) else self.pick(self.names)
        k = self.rng.random()
        if k < 0.3:
            return "%s in ?" % x
        if k < 0.4:
            return "%s -/ %s in ?" % (x, y)
        if k < 0.6:
            return "%s * (1 - %s) in [-1e5,%s]" % (x, x, self.pick(["1", "0.3", "0.26", "1e4"]))
        if k < 0.8:
            return "%s * %s - %s in [%s,1e6]" % (x, y, y, self.pick(["-1e6", "-1e4", "-100"]))
        return "1 / (%s + %s) in ?" % (x, self.pick(["201", "20.5", "0.1"]))

    def point(self, name):
        """A number in the first of the ranges, or nearly, or any other."""
        if self.maybe(0.03):
            return self.end()
        low, high = map(texts.signed_value, self.ranges[name][0])
        return "%db-9" % int((low + (high - low) * self.rng.randint(1, 99) / 100) * 512)

    def hint(self):
        name = self.pick(self.names)
        k = self.rng.random()
        if k < 0.3:
            return "$ %s in %d;" % (name, self.rng.randrange(1, 6 if self.maybe(0.9) else 65))
        if k < 0.5:
            points = {self.point(name) for _ in range(self.rng.randint(1, 4))}
            return "$ %s in (%s);" % (name, ",".join(sorted(points, key=texts.signed_value)))
        halved = self.rng.sample(self.names, self.rng.randint(1, len(self.names)))
        return "%s $ %s;" % (self.names[0], ", ".join(halved))

    def script(self):
        goals = " /\\ ".join(self.goal() for _ in range(self.rng.randint(1, 3)))
        hints = " ".join(self.hint() for _ in range(self.rng.randint(1, 4)))
        given = " /\\ ".join(self.claims())
        if self.has_cases:
            given += " -> v in [-2,0] \\/ v in [0,3]"
        return "{ %s -> %s } %s" % (given, goals, hints)


def rows(case):
    options = ["--depth", str(case.rng.choice([0, 1, 2, 3, 5, 8])), "--rounds", "5"]
    options += ["--boxes", str(case.rng.choice([1, 5, 17, 60, 250, 250, 250]))]
    options += ["--workers", case.rng.choice("124")]
    yield TreeMaker(case.rng).script().encode(), options


def tree_of(cert):
    """What the certificate says of its boxes, without steps."""
    tree = []
    for item in runs.module("certificate").read(cert):
        if item[0] in ("Mark", "Cases", "Cut"):
            tree.append(item)
        elif item[0] in ("Leaf", "Dead"):
            tree.append(item[0])
    return tree


def compare(case, text, options):
    words = ["prove", "a", "--cert", "c"] + options
    wanted = runs.answered({"a": text}, words)
    with case.place({"a": text}) as place:
        runs.same("prove", place.run(words), wanted[:2])
        cert = place.read("c")
    if wanted.status != 0:
        runs.same("the certificate", cert, None)
        return "status %d" % wanted.status
    if cert is None:
        raise runs.Differs("no certificate is written")
    checked = runs.answered({"a": text, "c": cert}, ["check", "a", "c"])
    runs.same("check by the reference", checked[:2], wanted[:2])
    tree = tree_of(wanted.files["c"])
    runs.same("the tree", tree_of(cert), tree)
    cut = any(isinstance(item, tuple) and item[0] == "Cut" for item in tree)
    return "status 0, " + ("with cuts" if cut else "one box a case")


if __name__ == "__main__":
    sys.exit(runs.main(rows, compare))
