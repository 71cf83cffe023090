"""Points of one case of a script: variables in their ranges and on their grids, and those that
hypotheses tie to others set from these.

A point is made from a place: a whole number from 0 to `top` for each variable. A variable with a
range of its own takes the multiple of its unit of that number. One that a hypothesis binds to
others, as `x - X in [-1b-10,1b-10]` does X, takes that share of the range which the others leave to
it.
"""

from fractions import Fraction

from script_text import children, rounded
from script_values import Coder, common

WIDE = 120  # bits of a denominator that `fixprove at` surely takes
SHARES = 1 << 10  # places of a variable that is tied to others
FAR = 1 << 12  # how far from 0, or from its only end, a range without ends is searched


class Unfit(Exception):
    """No points can be made for this case."""


class Affine:
    """Expressions as a * v + b in a variable v, without roundings: nodes of the script, or
    constants."""

    def __init__(self, script, name):
        self.script, self.at = script, script.variables[name]
        self.memo = {}

    def lit(self, value):
        return self.script.node(("lit", Fraction(value)))

    def const(self, node):
        """The value of a literal, with a minus or without; None of another node."""
        kind = self.script.nodes[node]
        if kind[0] == "neg" and self.script.nodes[kind[1]][0] == "lit":
            return -self.script.nodes[kind[1]][1]
        return kind[1] if kind[0] == "lit" else None

    def made(self, kind, a, b):
        """A node of an operation, folded where 0, 1 or two constants make it simpler."""
        x, y = self.const(a), self.const(b)
        if x is not None and y is not None and (kind != "div" or y):
            return self.lit(
                {"add": x + y, "sub": x - y, "mul": x * y}[kind] if kind != "div" else x / y
            )
        if kind in ("add", "sub") and y == 0 or kind in ("mul", "div") and y == 1:
            return a
        if kind == "add" and x == 0 or kind == "mul" and x == 1:
            return b
        if kind == "mul" and (x == 0 or y == 0) or kind == "div" and x == 0:
            return self.lit(0)
        return self.script.node((kind, a, b))

    def of(self, node):
        """(a, b) as nodes, or None where the expression isn't of this form."""
        if node not in self.memo:
            self.memo[node] = self.parts(node)
        return self.memo[node]

    def parts(self, at):
        if at == self.at:
            return self.lit(1), self.lit(0)
        node = self.script.nodes[at]
        kind = node[0]
        if kind in ("var", "lit"):
            return self.lit(0), at
        inner = [self.of(child) for child in children(node)]
        if None in inner:
            return None
        tied = [self.const(a) != 0 for a, _ in inner]
        if not any(tied):
            return self.lit(0), at
        if kind == "rnd":
            return inner[0]
        if kind == "neg":
            return tuple(self.made("mul", self.lit(-1), part) for part in inner[0])
        if kind in ("add", "sub"):
            return tuple(self.made(kind, x, y) for x, y in zip(*inner))
        if kind == "mul" and not all(tied):
            by = inner[1 if tied[0] else 0][1]
            return tuple(self.made("mul", part, by) for part in inner[0 if tied[0] else 1])
        if kind == "div" and not tied[1]:
            return tuple(self.made("div", part, inner[1][1]) for part in inner[0])
        return None


def floor_log(x):
    """The greatest k with 2^k at most x, of a fraction above 0."""
    k = x.numerator.bit_length() - x.denominator.bit_length()
    return k if Fraction(2) ** k <= x else k - 1


def names_in(script, *nodes):
    found = script.below([node for node in nodes if node is not None])
    return [name for name, node in script.variables.items() if node in found]


class Case:
    """One case of a script (numbered from 1). `top`: the greatest place of each variable, in the
    script's order; `zero`: the place nearest to the value 0. `more` are further claims that points
    meet."""

    def __init__(self, script, number=1, coarse=0, more=()):
        self.script, number = script, number - 1
        self.claims = list(more)
        for part in reversed(script.parts):
            number, place = divmod(number, len(part))
            self.claims = part[place] + self.claims
        self.names = list(script.variables)
        self.grids = {}
        for claim in self.claims:
            node = script.nodes[claim.left]
            if claim.kind == "fix" and node[0] == "var":
                self.grids[node[1]] = max(claim.lower, self.grids.get(node[1], claim.lower))
        self.ranges = {name: [None, None] for name in self.names}
        self.ties = self.tied(self.single())
        self.fine()
        for bits, more in ((30, 0), (20, 0), (14, 0), (10, 0), (10, 6), (7, 12), (5, 18)):
            self.units_of(bits, max(coarse, more))
            coder = Coder(script, self.units)
            for node in range(len(script.nodes)):
                coder.of(node)
            if coder.bits() <= WIDE:
                break
        self.places()

    # -- ranges

    def narrow(self, name, low, high):
        """Meets a variable's range with another."""
        ends = self.ranges[name]
        if low is not None:
            ends[0] = low if ends[0] is None else max(low, ends[0])
        if high is not None:
            ends[1] = high if ends[1] is None else min(high, ends[1])

    def single(self):
        """Takes the ranges from claims on one variable alone; gives the other claims."""
        others = []
        for claim in self.claims:
            names = names_in(self.script, claim.left, claim.right)
            if claim.kind == "fix":
                continue
            if len(names) != 1 or claim.kind == "rel":
                others.append((claim, names))
                continue
            node = self.script.nodes[claim.left]
            if (
                node[0] == "abs"
                and self.script.nodes[node[1]][0] == "var"
                and claim.upper is not None
            ):
                self.narrow(names[0], -claim.upper, claim.upper)
                continue
            affine = Affine(self.script, names[0])
            form = affine.of(claim.left)
            a, b = [affine.const(part) for part in form] if form else (None, None)
            if not a or b is None:
                continue
            low, high = ends_of(claim)
            low, high = [None if end is None else (end - b) / a for end in (low, high)]
            self.narrow(names[0], *((low, high) if a > 0 else (high, low)))
        return others

    def tied(self, claims):
        """Of each variable the claims that bind it to others, as (claim, a, b, other side or None,
        whether the variable stands on the right of a `-/`); and in `order` the variables, each
        after those that it is bound to."""
        ties, before = {name: [] for name in self.names}, {name: set() for name in self.names}

        def reaches(name, others):
            return any(other == name or reaches(name, before[other]) for other in others)

        for claim, names in sorted(claims, key=lambda it: it[0].lower != it[0].upper):
            names = sorted(names, key=lambda n: (None not in self.ranges[n], -self.names.index(n)))
            for name in names:
                tie, others = self.tie(claim, name), set(names) - {name}
                if tie and not reaches(name, others):
                    ties[name].append(tie)
                    before[name] |= others
                    break
        self.order = []
        while len(self.order) < len(self.names):
            self.order.append(
                next(n for n in self.names if n not in self.order and before[n] <= set(self.order))
            )
        return ties

    def tie(self, claim, name):
        """How a claim binds a variable, or None where it isn't by a sum of multiples."""
        affine = Affine(self.script, name)
        if claim.kind != "rel":
            form = affine.of(claim.left)
            return form and affine.const(form[0]) != 0 and (claim,) + form + (None, False) or None
        sides = [affine.of(claim.left), affine.of(claim.right)]
        if None in sides and not (sides[0] and name not in names_in(self.script, claim.right)):
            return None
        fixed = [side is None or affine.const(side[0]) == 0 for side in sides]
        if fixed[0] == fixed[1]:
            return None
        turned = fixed[0]
        return (claim,) + sides[turned] + ((claim.left, claim.right)[not turned], turned)

    def fine(self):
        """Grids of variables without one that a claim `@FIX(e,k)` of a product or sum asks for: the
        finest on which e is a multiple at some points."""
        script, points = self.script, [1, 3, 7, 11, 29, 101]
        for claim in self.claims:
            names = names_in(script, claim.left)
            if claim.kind != "fix" or script.nodes[claim.left][0] == "var":
                continue
            for name in names:
                if name in self.grids:
                    continue
                for power in range(min(claim.lower, 0), 1):
                    unit = Fraction(2) ** power
                    tried = [
                        {
                            n: k * unit if n == name else Fraction(2) ** self.grids.get(n, 0)
                            for n in names
                        }
                        for k in points
                    ]
                    if all(script.holds(claim, point) for point in tried):
                        self.grids[name] = power
                        break

    # -- units and places

    def units_of(self, bits, coarse):
        """The unit of each variable: its grid, or so many bits below its range's width."""
        self.units = {name: Fraction(1, 1 << 16) for name in self.names}
        for name in self.order:
            low, high = self.ranges[name]
            widths = [
                ends[1] - ends[0]
                for ends in [ends_of(tie[0]) for tie in self.ties[name]]
                if None not in ends
            ]
            if name in self.grids:
                unit = Fraction(2) ** self.grids[name]
            elif any(width == 0 for width in widths):
                unit = self.exact(
                    [
                        tie
                        for tie in self.ties[name]
                        if tie[0].lower is not None and tie[0].lower == tie[0].upper
                    ]
                )
            elif widths:
                unit = Fraction(2) ** (floor_log(min(widths)) - min(12, bits))
            elif None not in (low, high) and low < high:
                unit = Fraction(2) ** (floor_log(high - low) - bits)
            elif low is not None and low == high:
                unit = abs(low) or Fraction(1)
            else:
                unit = Fraction(1, 1 << min(16, bits))
            spans = [w for w in widths + [high - low if None not in (low, high) else 0] if w]
            if spans and min(spans) >= 16 * unit:
                unit *= 1 << min(coarse, floor_log(min(spans) / (16 * unit)))
            self.units[name] = unit

    def exact(self, ties):
        """The unit of a variable that an equality sets: its value is a multiple of it, but where
        the equality has divisions."""
        claim, a, b = ties[0][:3]
        coder, by = Coder(self.script, self.units), self.script.nodes[a]
        form = coder.of(b)
        if form[0] == "pair" or by[0] != "lit" or claim.kind == "rel":
            return Fraction(1, 1 << 40)
        unit, end = form[2] / abs(by[1]), abs(claim.lower / by[1])
        return common(unit, end) if end else unit

    def places(self):
        """The greatest place of each variable, and its least number of units."""
        self.low, self.top, self.zero = {}, [], []
        for name in self.names:
            (low, high), unit = self.ranges[name], self.units[name]
            if self.ties[name]:
                equal = any(tie[0].lower == tie[0].upper for tie in self.ties[name])
                self.top.append(0 if equal else SHARES)
                self.zero.append(SHARES // 2)
                continue
            if low is None and high is None:
                low, high = Fraction(-FAR), Fraction(FAR)
            low = high - FAR if low is None else low
            high = low + FAR if high is None else high
            first, last = int(rounded("up", 0, low / unit)), int(rounded("dn", 0, high / unit))
            if first > last:
                raise Unfit
            self.low[name] = first
            self.top.append(last - first)
            self.zero.append(min(max(-first, 0), last - first))

    # -- what is asked

    def put(self, coder, name, place):
        """The lines that set a variable from its place."""
        line = "v_%s = " % name
        if not self.ties[name]:
            coder.lines.append(line + "%s + %d" % (place, self.low[name]))
            return
        unit = self.units[name]
        lows, highs = [
            [] if end is None else [str(int(rounded(way, 0, end / unit)))]
            for end, way in zip(self.ranges[name], ("up", "dn"))
        ]
        for k, tie in enumerate(self.ties[name]):
            for end, (text, found) in enumerate(zip(self.ends(coder, unit, *tie), (lows, highs))):
                if text:
                    coder.lines.append("e%d_%d_%s = %s" % (end, k, name, text))
                    found.append("e%d_%d_%s" % (end, k, name))
        low, high = [
            text and (text[0] if len(text) == 1 else "%s(%s)" % (word, ", ".join(text)))
            for text, word in ((lows, "max"), (highs, "min"))
        ]
        wide = int(FAR / unit)
        coder.lines.append(
            "l = %s; h = %s"
            % (low or "(%s) - %d" % (high, wide), high or "(%s) + %d" % (low, wide))
        )
        coder.lines.append(line + "l + ((h - l) * %s // %d) if h >= l else h" % (place, SHARES))

    @staticmethod
    def ends(coder, unit, claim, a, b, side, turned):
        """The texts of the ends, in units, that a tie leaves a variable; "" where it leaves one
        open."""
        ends = ends_of(claim)
        by, form = coder.script.nodes[a], coder.of(b)
        if claim.kind != "rel" and by[0] == "lit" and form[0] == "whole":
            texts = []
            for end, last in zip(ends if by[1] > 0 else ends[::-1], (False, True)):
                if end is None:
                    texts.append("")
                    continue
                step, begin = form[2] / by[1] / unit, end / by[1] / unit
                d = step.denominator * begin.denominator
                sign = 1 if last else -1
                text = "(%d - %s * %d) // %d" % (sign * begin * d, form[1], sign * step * d, d)
                texts.append(text if last else "-(%s)" % text)
            return texts
        (p, q), (r, s), texts = coder.pair(coder.of(a)), coder.pair(form), []
        if claim.kind == "rel":
            x, y = coder.pair(coder.of(side))
        for end in ends:
            if end is None:
                texts.append("None")
            elif claim.kind == "rel":
                end = 1 / (1 + end) if turned else 1 + end
                texts.append("(%s) * %d, (%s) * %d" % (x, end.numerator, y, end.denominator))
            else:
                texts.append("%d, %d" % (end.numerator, end.denominator))
        name = "l%d" % len(coder.lines)
        coder.lines.append(
            "%s = span((%s, %s, %s, %s), %s, %s, %d, %d)"
            % (
                name,
                p,
                q,
                r,
                s,
                *["(%s)" % text if text != "None" else text for text in texts],
                unit.numerator,
                unit.denominator,
            )
        )
        return name + "[0]", name + "[1]"

    def ask(self, goals, values=False):
        """Sets what `told` gives of goals besides how far a point is from meeting the case: how far
        each is outside its bounds, or with `values` its value as a float (None: there is none)."""
        coder = Coder(self.script, self.units)
        places = {name: "t%d" % k for k, name in enumerate(self.names)}
        for name in self.order:
            self.put(coder, name, places[name])
        numbers = "(%s)" % "".join("v_%s, " % name for name in self.names)
        self.numbers = coder.function(places.values(), [numbers], span=span)
        far = ["max(0.0, %s)" % coder.claim(claim) for claim in self.claims]
        texts = [coder.value(goal) if values else coder.claim(goal) for goal in goals]
        self.function = coder.function(
            places.values(), [" + ".join(far) or "0.0"] + texts, span=span
        )

    def told(self, place):
        """How far a place is from meeting the case, and what was asked."""
        return self.function(*place)

    def point(self, place):
        """The point at a place, as {variable: fraction}."""
        return {name: n * self.units[name] for name, n in zip(self.names, self.numbers(*place)[0])}


NOWHERE = -(1 << 200), 1 << 200


def span(form, first, last, n, d):
    """The whole numbers v, from the least to the greatest, with a * v * n / d + b between two ends.
    Of `form` a is p / q and b is r / s; an end is (numerator, denominator), or None where it is
    open."""
    p, q, r, s = form
    if not (p and q and s) or first and not first[1] or last and not last[1]:
        return NOWHERE
    sides = [
        side and Fraction((side[0] * s - r * side[1]) * q * d, side[1] * s * p * n)
        for side in (first, last)
    ]
    if p < 0:
        sides.reverse()
    if None not in sides:
        sides.sort()
    low, high = sides
    return (
        NOWHERE[0] if low is None else -(-low.numerator // low.denominator),
        NOWHERE[1] if high is None else high.numerator // high.denominator,
    )


def ends_of(claim):
    """The bounds that a claim sets for its expression, closed."""
    if claim.negated:
        return claim.upper, claim.lower
    return claim.lower, claim.upper
