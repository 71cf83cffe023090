"""Scripts as Python functions over whole numbers, for searches that try many points.

A variable's value is a whole multiple of its unit. A value whose denominator is known beforehand is
a whole number times a fixed scale; another one, after a division, is a pair of whole numbers p, q
with q >= 0, and q = 0 where it has no value. So all values are exact, and signs of differences are,
too.
"""

from fractions import Fraction
from math import gcd

from script_text import children

NO_VALUE = float("inf")


def common(a, b):
    """The greatest fraction of which two positive fractions are whole multiples."""
    return Fraction(
        gcd(a.numerator * b.denominator, b.numerator * a.denominator), a.denominator * b.denominator
    )


def nearest(n, b):
    """n / b rounded to the nearest whole number below or above, and how its tie stands: the floor
    of n / b + 1/2, and whether n / b lies in the middle of two whole numbers."""
    whole, rest = divmod(2 * n + b, 2 * b)
    return whole, rest == 0


def rounds(direction, n, b):
    """n / b, for b > 0, as the whole number that a direction gives (all but dn, up, nu)."""
    if direction in ("zr", "aw"):
        return n // b if (n >= 0) == (direction == "zr") else -(-n // b)
    if direction == "od":
        whole, rest = divmod(n, b)
        return whole + (rest != 0 and whole % 2 == 0)
    whole, tie = nearest(n, b)
    down = {"ne": whole % 2 == 1, "no": whole % 2 == 0, "nd": True, "nz": n > 0, "na": n < 0}
    return whole - (tie and down[direction])


def rounding(direction, n, b, shift=None):
    """The text of a rounding of n / b (texts); `shift` where b is 2^shift."""
    if direction == "dn":
        return "(%s) // %s" % (n, b) if shift is None else "(%s) >> %d" % (n, shift)
    if direction == "up":
        return "-(-(%s) // %s)" % (n, b)
    if direction == "nu":
        return "(2 * (%s) + %s) // (2 * %s)" % (n, b, b)
    return "rounds(%r, %s, %s)" % (direction, n, b)


class Coder:
    """Lines of Python that evaluate nodes of a script, each once."""

    def __init__(self, script, units):
        self.script, self.units, self.lines = script, units, []
        self.forms, self.dies = {}, {}

    def put(self, node, text):
        self.lines.append("x%d = %s" % (node, text))
        return "x%d" % node

    def of(self, node):
        """("whole", text, scale) or ("pair", p, q) of a node; puts the lines that it needs."""
        if node not in self.forms:
            inner = [self.of(child) for child in children(self.script.nodes[node])]
            self.dies[node] = frozenset().union(
                *[self.dies[child] for child in children(self.script.nodes[node])]
            )
            self.forms[node] = self.made(node, self.script.nodes[node], inner)
        return self.forms[node]

    @staticmethod
    def pair(form):
        if form[0] == "pair":
            return form[1], form[2]
        scale = form[2]
        text = form[1] if scale.numerator == 1 else "%s * %d" % (form[1], scale.numerator)
        return text, str(scale.denominator)

    def both(self, node, p, q):
        self.lines.append("p%d = %s; q%d = %s" % (node, p, node, q))
        return "pair", "p%d" % node, "q%d" % node

    def made(self, at, node, inner):
        kind = node[0]
        if kind == "var":
            return "whole", "v_" + node[1], self.units[node[1]]
        if kind == "lit":
            return "whole", str(node[1].numerator), Fraction(1, node[1].denominator)
        if kind == "rnd":
            return self.rounded(at, node, inner[0])
        if all(form[0] == "whole" for form in inner):
            (_, a, s), (_, b, t) = inner[0], inner[-1]
            if kind == "neg":
                return "whole", self.put(at, "-" + a), s
            if kind == "abs":
                return "whole", self.put(at, "abs(%s)" % a), s
            if kind == "mul":
                return "whole", self.put(at, "%s * %s" % (a, b)), s * t
            if kind in ("add", "sub"):
                unit = common(s, t)
                a = a if s == unit else "%s * %d" % (a, s / unit)
                b = b if t == unit else "%s * %d" % (b, t / unit)
                return (
                    "whole",
                    self.put(at, "%s %s %s" % (a, "+" if kind == "add" else "-", b)),
                    unit,
                )
            by = self.script.nodes[node[2]]
            if by[0] == "lit" and by[1]:
                return "whole", a, s / by[1]
        (p, q), (r, s) = self.pair(inner[0]), self.pair(inner[-1])
        if kind in ("neg", "abs"):
            return self.both(at, "-(%s)" % p if kind == "neg" else "abs(%s)" % p, q)
        if kind == "mul":
            return self.both(at, "%s * %s" % (p, r), "%s * %s" % (q, s))
        if kind in ("add", "sub"):
            sign = "+" if kind == "add" else "-"
            return self.both(at, "%s * %s %s %s * %s" % (p, s, sign, r, q), "%s * %s" % (q, s))
        made = self.both(at, "%s * %s" % (p, s), "%s * %s" % (q, r))
        self.lines.append("if q%d < 0: p%d, q%d = -p%d, -q%d" % ((at,) * 5))
        self.dies[at] |= {"q%d" % at}
        return made

    def rounded(self, at, node, form):
        direction, power = node[1:3]
        unit = Fraction(2) ** power
        if form[0] == "whole":
            ratio = form[2] / unit
            if ratio.denominator == 1:
                return form
            n = form[1] if ratio.numerator == 1 else "%s * %d" % (form[1], ratio.numerator)
            b = ratio.denominator
            shift = b.bit_length() - 1 if b & (b - 1) == 0 else None
            return "whole", self.put(at, rounding(direction, n, str(b), shift)), unit
        n = "%s * %d" % (form[1], unit.denominator)
        b = "(%s * %d)" % (form[2], unit.numerator)
        return "whole", self.put(at, rounding(direction, n, b) + " if %s else 0" % form[2]), unit

    def alive(self, node):
        """The text of what is true where the node has a value."""
        return " and ".join(sorted(self.dies[node]))

    # -- how far a value lies from a range: below 0 inside, 0 at its ends, above 0 outside

    def over(self, lower, upper, form, strict=False):
        """The text of how far a form's value lies outside bounds (one or both may be None). With
        `strict` it is at most 0 only inside the open range."""
        if lower is None and upper is None:
            return "-1.0"
        if form[0] == "whole":
            n, scale, ends = form[1], form[2], []
            if lower is not None:
                low = lower / scale
                ends.append(
                    "%d - %s"
                    % (
                        low.numerator // low.denominator + 1
                        if strict
                        else -(-low.numerator // low.denominator),
                        n,
                    )
                )
            if upper is not None:
                high = upper / scale
                ends.append(
                    "%s - %d"
                    % (
                        n,
                        -(-high.numerator // high.denominator) - 1
                        if strict
                        else high.numerator // high.denominator,
                    )
                )
            text = "max(%s)" % ", ".join(ends) if len(ends) > 1 else "(%s)" % ends[0]
            return "%s * %r" % (text, max(float(scale), 1e-300))
        p, q, ends = form[1], form[2], []
        if lower is not None:
            ends.append(
                "(%d * %s - %s * %d) / (%s * %d)"
                % (lower.numerator, q, p, lower.denominator, q, lower.denominator)
            )
        if upper is not None:
            ends.append(
                "(%s * %d - %d * %s) / (%s * %d)"
                % (p, upper.denominator, upper.numerator, q, q, upper.denominator)
            )
        return "max(%s)" % ", ".join(ends) if len(ends) > 1 else "(%s)" % ends[0]

    def relative(self, claim):
        """p, q of `x / y - 1`, as texts; q is 0 where there is none."""
        (p, q), (r, s) = self.pair(self.of(claim.left)), self.pair(self.of(claim.right))
        k = len(self.lines)
        self.lines.append("a%d = %s * %s - %s * %s; b%d = %s * %s" % (k, p, s, r, q, k, q, r))
        self.lines.append("if b%d < 0: a%d, b%d = -a%d, -b%d" % ((k,) * 5))
        return "a%d" % k, "b%d" % k

    def claim(self, claim):
        """The text of a claim's distance from being true: at most 0 where it holds."""
        left = self.of(claim.left)
        if claim.kind == "rel":
            p, q = self.relative(claim)
            alive = " and ".join(sorted(self.dies[claim.left] | self.dies[claim.right]))
            text = "(%s if %s else -1.0 if %s == 0 else NO_VALUE)" % (
                self.over(claim.lower, claim.upper, ("pair", p, q)),
                q,
                p,
            )
            return "(%s if %s else NO_VALUE)" % (text, alive) if alive else text
        if claim.kind == "fix":
            (p, q), unit = self.pair(left), Fraction(2) ** claim.lower
            text = "((%s * %d) %% (%s * %d) != 0) * 1.0" % (p, unit.denominator, q, unit.numerator)
        elif claim.negated:  # not e <= b is e > b, and not e >= b is e < b
            text = self.over(claim.upper, claim.lower, left, True)
            if left[0] == "pair":
                text = "(%s or 1e-300)" % text
        else:
            text = self.over(claim.lower, claim.upper, left)
        alive = self.alive(claim.left)
        return "(%s if %s else NO_VALUE)" % (text, alive) if alive else text

    def value(self, claim):
        """The text of a goal's value as a float, rounded to nearest; for a search alone."""
        if claim.kind == "rel":
            p, q = self.relative(claim)
            alive = " and ".join(sorted(self.dies[claim.left] | self.dies[claim.right] | {q}))
        else:
            p, q = self.pair(self.of(claim.left))
            alive = self.alive(claim.left)
        return "(%s / %s if %s else None)" % (p, q, alive) if alive else "(%s) / %s" % (p, q)

    def function(self, names, texts, **scope):
        """A function of so many whole numbers that runs the lines and gives what the texts say, as
        a tuple. `scope` has further functions that the lines use."""
        code = "def f(%s):\n    %s\n    return (%s,)\n" % (
            ", ".join(names),
            "\n    ".join(self.lines + ["pass"]),
            ", ".join(texts),
        )
        scope.update(rounds=rounds, NO_VALUE=NO_VALUE)
        exec(code, scope)
        return scope["f"]

    def bits(self):
        """The most bits that a denominator of a whole form has."""
        return max(
            [form[2].denominator.bit_length() for form in self.forms.values() if form[0] == "whole"]
            + [0]
        )
