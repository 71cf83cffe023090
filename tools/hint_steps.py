"""Hints for steps that approach a quotient, such as Newton's for a reciprocal: the error of a step
by that of the value before."""

from fractions import Fraction

from hint_patterns import Patterns
from hint_texts import TooLong


class Steps(Patterns):
    """Where a hypothesis says v -/ Y of a variable v and Y = 1 / d, v is written Y * (1 + r) with
    r = v / Y - 1, and d * Y is 1. The atom ("r", (v, Y)) is r."""

    def seeds(self):
        """(v, the quotient, its divisor) for each hypothesis v -/ 1 / d."""
        for claim in self.hypotheses:
            if (
                claim.kind == "rel"
                and self.kind(claim.left) == "var"
                and self.kind(claim.right) == "div"
            ):
                above, below = self.nodes[claim.right][1:]
                if self.nodes[above] == ("lit", 1) and self.kind(below) == "var":
                    yield claim.left, claim.right, below

    def atom(self, atom, level):
        if atom[0] == "r":
            return "(%s / %s - 1)" % (self.text(atom[1][0], 2), self.text(atom[1][1], 3))
        return Patterns.atom(self, atom, level)

    def seeded(self, p, v, near, below):
        """The polynomial with v = Y * (1 + r), and each d * Y left out."""
        one, two = ("n", near), ("r", (v, near))
        factor = {((one, 1),): Fraction(1), tuple(sorted(((one, 1), (two, 1)))): Fraction(1)}
        made = {}
        for m, c in p.items():
            power = dict(m).get(("v", v), 0)
            term = {tuple(x for x in m if x[0] != ("v", v)): c}
            for _ in range(power):
                term = self.times(term, factor)
            made = self.plus(made, term, 1)
        out = {}
        for m, c in made.items():
            powers = dict(m)
            both = min(powers.get(one, 0), powers.get(("v", below), 0))
            for atom in (one, ("v", below)):
                powers[atom] = powers.get(atom, 0) - both
            key = tuple(sorted((a, n) for a, n in powers.items() if n))
            out[key] = out.get(key, 0) + c
        return {m: c for m, c in out.items() if c}

    def steps(self):
        """Hints for steps toward a quotient: products by the divisor, the error of each step."""
        for v, near, below in self.seeds():
            for a, b in ((below, v), (v, below)):
                if ("mul", a, b) in self.script.index:
                    yield lambda v=v, near=near, a=a, b=b: "%s * %s -> %s / %s;" % (
                        self.text(a, 2),
                        self.text(b, 3),
                        self.text(v, 2),
                        self.text(near, 3),
                    )
            for goal in self.script.goals:
                node = self.nodes[goal.left]
                y, exact = (
                    (goal.left, goal.right)
                    if goal.kind == "rel"
                    else node[1:]
                    if node[0] == "sub"
                    else (None, None)
                )
                if y is None or self.kind(exact) != "div" or self.nodes[exact][2] != below:
                    continue
                for line in self.step(y, exact, v, near, below):
                    yield lambda line=line: line

    def step(self, y, exact, v, near, below):
        """The hints for one goal y - exact, v a value near 1 / below."""
        try:
            whole = self.times(
                self.polynomial(self.nodes[exact][1], "keep"), {((("n", near), 1),): Fraction(1)}
            )
            gap = self.plus(
                self.seeded(self.polynomial(y, "drop"), v, near, below),
                self.seeded(whole, v, near, below),
                -1,
            )
            step, right = self.twin(y, {}), self.text(exact, 2)
            found = ["(%s) - %s -> %s;" % (step, right, self.horner(gap))]
        except TooLong:
            return []
        return found + (["%s ~ %s;" % (self.text(y), step)] if self.has_rounding(y) else [])
