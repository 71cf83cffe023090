"""Scripts at points: values of expressions, truth of claims, points to try. All exact."""

import random
from fractions import Fraction

from exact import decimal, rounded


def children(node):
    return () if node[0] in ("var", "lit") else node[3:] if node[0] == "rnd" else node[1:]


class Evaluated:
    """What a Script of script_text.py can be asked of points, which are {variable: fraction}."""

    def ranges(self):
        """Each variable with hypotheses `v in [a,b]`, and the hull of their ranges (what stands
        in several cases)."""
        found = {}
        for _, claim in self.hypotheses():
            if claim.kind == "in" and self.nodes[claim.left][0] == "var":
                name = self.nodes[claim.left][1]
                low, high = found.get(name, (claim.lower, claim.upper))
                found[name] = min(low, claim.lower), max(high, claim.upper)
        return found

    def holds(self, claim, point):
        """Whether a proposition is true at a point."""
        left = self.value(claim.left, point)
        if claim.kind == "rel":
            right = self.value(claim.right, point)
            if not left or not right:
                return left == right == 0
            left = left / right - 1
        if left is None:
            return False
        if claim.kind == "fix":
            return (left / Fraction(2) ** claim.lower).denominator == 1
        inside = (claim.lower is None or left >= claim.lower) and (
            claim.upper is None or left <= claim.upper
        )
        return inside != claim.negated

    def meets(self, point):
        """Whether some conjunction of every hypothesis part is true at a point."""
        return all(
            any(all(self.holds(claim, point) for claim in some) for some in part)
            for part in self.parts
        )

    def points(self, count, seed=1):
        """Points with each variable in its range and on its grid, where hypotheses give these;
        the same ones in each run."""
        chance, ranges = random.Random(seed), self.ranges()
        grids = {c.left: c.lower for _, c in self.hypotheses() if c.kind == "fix"}
        for number in range(count):
            point = {}
            for name, node in self.variables.items():
                low, high = ranges.get(name, (-2, 2))
                share = (
                    Fraction(number % 3, 2)
                    if number < 3
                    else Fraction(chance.randrange(1 << 20), 1 << 20)
                )
                point[name] = rounded("dn", grids.get(node, -40), low + (high - low) * share)
            yield point

    def judged(self, hint):
        """What values at points say of a rewriting hint that isn't checked."""
        tried, opaque = 0, True
        for point in self.points(60):
            if not all(
                self.compared(self.value(node, point), sign, bound)
                for node, sign, bound in hint.needs
            ):
                continue
            left, right = self.value(hint.left, point), self.value(hint.right, point)
            if left is None or right is None:
                continue
            tried += 1
            unknowns = {}
            opaque = opaque and self.value(hint.left, point, unknowns) == self.value(
                hint.right, point, unknowns
            )
            if left != right:
                below = self.below([hint.left, hint.right])
                where = ", ".join(
                    "%s = %s" % (n, decimal(point[n], 4))
                    for n, k in self.variables.items()
                    if k in below
                )
                return "its sides differ: at %s the left is %s, the right %s%s." % (
                    where,
                    decimal(left, 6),
                    decimal(right, 6),
                    "; this point meets the hypotheses" if self.meets(point) else "",
                )
        if not tried:
            return "no point was found where it speaks."
        if opaque:
            return (
                "its sides are equal at %d points, also with roundings as unknowns: true, but too "
                "large for the normal forms." % tried
            )
        return (
            "its sides are equal at %d points; the check takes |..| and roundings as unknowns, and "
            "with these they differ." % tried
        )

    @staticmethod
    def compared(value, sign, bound):
        return value is not None and {
            "<>": value != bound,
            "<": value < bound,
            "<=": value <= bound,
            ">": value > bound,
        }.get(sign, value >= bound)

    def below(self, roots):
        seen, todo = set(), list(roots)
        while todo:
            at = todo.pop()
            if at not in seen:
                seen.add(at)
                todo.extend(children(self.nodes[at]))
        return seen

    def value(self, root, point, opaque=None):
        """The exact value at {name: fraction}, None where there is none. With `opaque`, {node:
        fraction}, roundings and absolute values are unknowns of their own, as in the program's
        check of hints."""
        memo = {}

        def of(at):
            if at not in memo:
                memo[at] = self.at_node(self.nodes[at], at, point, opaque, of)
            return memo[at]

        return of(root)

    @staticmethod
    def at_node(node, at, point, opaque, of):
        kind = node[0]
        if kind == "var":
            return point[node[1]]
        if kind == "lit":
            return node[1]
        if opaque is not None and kind in ("abs", "rnd"):
            return opaque.setdefault(at, Fraction(7919 * (at + 3) % 10007, 8 + at))
        inner = [of(child) for child in children(node)]
        if None in inner or kind == "div" and inner[1] == 0:
            return None
        if kind in ("add", "sub", "mul", "div"):
            a, b = inner
            return (
                a + b
                if kind == "add"
                else a - b
                if kind == "sub"
                else a * b
                if kind == "mul"
                else a / b
            )
        return (
            -inner[0]
            if kind == "neg"
            else abs(inner[0])
            if kind == "abs"
            else rounded(node[1], node[2], inner[0])
        )
