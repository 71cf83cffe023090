"""Texts and polynomials of a script's expressions, for the patterns of hints."""

from fractions import Fraction


class TooLong(Exception):
    """A text or a polynomial that no script would take."""


class Texts:
    """The expressions of one script. Polynomials are {monomial: coefficient}, a monomial a sorted
    tuple of (atom, power); an atom is ("v", node) for a variable, ("e", node) for the error of a
    rounding or a difference, ("n", node) for what is left as it is."""

    def __init__(self, script):
        self.script, self.nodes, self.name = script, script.nodes, script.names()
        self.hypotheses = [claim for _, claim in script.hypotheses()]
        self.pairs = self.closure()

    def kind(self, at):
        """The kind of a node."""
        return self.nodes[at][0]

    def has_rounding(self, at):
        """Whether a rounding stands in a node."""
        return any(self.kind(k) == "rnd" for k in self.script.below([at]))

    def closure(self):
        """The pairs that the program compares (docs/RULES.md, The universe)."""
        script, todo = self.script, []
        for node in self.nodes:
            if node[0] == "rnd":
                todo.append((self.script.index[node], node[3]))
        for claim in self.hypotheses + script.goals:
            if claim.kind == "rel":
                todo.append((claim.left, claim.right))
            elif self.kind(claim.left) == "sub":
                todo.append(self.nodes[claim.left][1:])
        for hint in script.hints:
            if hint.kind == "like":
                todo.append((hint.left, hint.right))
            for side in (hint.left, hint.right) if hint.kind == "rewrite" else ():
                if self.kind(side) == "sub":
                    todo.append(self.nodes[side][1:])
        found = {}
        while todo:
            a, b = todo.pop()
            if (a, b) in found:
                continue
            found[a, b] = True
            x, y = self.nodes[a], self.nodes[b]
            if a != b and x[0] == y[0] and x[0] in ("add", "sub", "mul", "div"):
                todo += [(x[1], y[1]), (x[2], y[2])]
            if a != b and x[0] == y[0] == "neg":
                todo.append((x[1], y[1]))
            if x[0] == "rnd" and x[3] != b:
                todo.append((x[3], b))
        return found

    # ---- texts

    def text(self, at, level=0, top=False):
        """The node as a text; a named one by its name. Levels: 1 a sum's operand, 2 a term's, 3 a
        factor."""
        node = self.nodes[at]
        kind = node[0]
        if not top and at in self.name:
            return self.name[at]
        if kind == "lit":
            return self.script.spelled[at]
        if kind == "var":
            return node[1]
        if kind == "abs":
            return "|" + self.text(node[1]) + "|"
        if kind == "rnd":
            return "fixed<%d,%s>(%s)" % (node[2], node[1], self.text(node[3]))
        if kind == "neg":
            made, own = "-" + self.text(node[1], 3), 2
        elif kind in ("add", "sub"):
            made, own = (
                self.text(node[1], 1) + (" + " if kind == "add" else " - ") + self.text(node[2], 2),
                1,
            )
        else:
            made, own = (
                self.text(node[1], 2) + (" * " if kind == "mul" else " / ") + self.text(node[2], 3),
                2,
            )
        if len(made) > 60000:
            raise TooLong
        return "(" + made + ")" if own < level else made

    @staticmethod
    def number(exact, level=0):
        """A fraction as a text: with a power of two, in decimals or as a quotient."""
        exact = Fraction(exact)
        above, below = abs(exact).numerator, exact.denominator
        if below & (below - 1) == 0:
            power = 1 - below.bit_length()
            while above and above % 2 == 0 and above > 10**15:
                above, power = above // 2, power + 1
            made, own = "%db%d" % (above, power) if power else str(above), 4
        elif 10**12 % below == 0:
            digits = next(k for k in range(13) if 10**k % below == 0)
            text = str(above * 10**digits // below).rjust(digits + 1, "0")
            made, own = text[:-digits] + "." + text[-digits:], 4
        else:
            made, own = "%d / %d" % (above, below), 2
        if len(str(above)) > 30 or len(str(below)) > 30 and own == 2:
            raise TooLong
        if exact < 0:
            made, own = "-" + made, min(own, 2)
        return "(" + made + ")" if own < level else made

    # ---- polynomials

    def differences(self):
        """Variables V of hypotheses e - V in [a,b], of which nothing else is known: {V: (e, the
        difference)}."""
        known = {
            c.left
            for c in self.hypotheses
            if c.kind in ("fix", "in") and self.kind(c.left) == "var"
        }
        found = {}
        for claim in self.hypotheses:
            node = self.nodes[claim.left]
            if (
                claim.kind == "in"
                and node[0] == "sub"
                and self.kind(node[2]) == "var"
                and node[2] not in known
            ):
                if node[2] not in self.script.below(
                    [node[1]] + [near for near, _ in found.values()]
                ):
                    found.setdefault(node[2], (node[1], claim.left))
        return found

    def twins(self):
        """Variables with an exact twin, by hypotheses v - V or v -/ V: {v: V}."""
        found = {}
        for claim in self.hypotheses:
            node = self.nodes[claim.left]
            if (
                claim.kind == "in"
                and node[0] == "sub"
                and node[2] in self.differences()
                and self.kind(node[1]) == "var"
            ):
                found.setdefault(node[1], node[2])
            if claim.kind == "rel" and self.kind(claim.left) == self.kind(claim.right) == "var":
                found[claim.left] = claim.right
        return found

    def polynomial(self, at, mode, swap=None, memo=None):
        """Roundings are kept as atoms ("keep"), left out ("drop"), or written as operand and error
        ("delta")."""
        swap, memo = swap or {}, {} if memo is None else memo
        if at in memo:
            return memo[at]
        node = self.nodes[at]
        kind = node[0]

        def of(child):
            return self.polynomial(child, mode, swap, memo)

        if kind == "lit":
            made = {(): node[1]} if node[1] else {}
        elif kind == "var":
            made = {((("v", swap.get(at, at)), 1),): Fraction(1)}
            if mode == "delta" and at in self.differences():
                near, gap = self.differences()[at]
                made = self.plus(of(near), {((("e", gap), 1),): Fraction(1)}, -1)
        elif kind == "neg":
            made = {m: -c for m, c in of(node[1]).items()}
        elif kind == "abs" and mode == "drop" and self.touches(at, swap):
            made = {((("n", self.twin_node(at, swap)), 1),): Fraction(1)}
        elif kind == "abs" or kind == "rnd" and mode == "keep":
            made = {((("n", at), 1),): Fraction(1)}
        elif kind == "rnd":
            made = dict(of(node[3]))
            if mode == "delta":
                made[((("e", at), 1),)] = Fraction(1)
        elif kind in ("add", "sub"):
            made = self.plus(of(node[1]), of(node[2]), 1 if kind == "add" else -1)
        elif kind == "mul":
            made = self.times(of(node[1]), of(node[2]))
        else:
            below = of(node[2])
            if set(below) == {()}:
                made = {m: c / below[()] for m, c in of(node[1]).items()}
            elif not below or mode != "keep" and self.has_rounding(at):
                raise TooLong
            else:
                made = {((("n", at), 1),): Fraction(1)}
        if len(made) > 250:
            raise TooLong
        memo[at] = made
        return made

    @staticmethod
    def plus(p, q, sign):
        """p + sign * q of polynomials."""
        made = dict(p)
        for m, c in q.items():
            made[m] = made.get(m, 0) + sign * c
        return {m: c for m, c in made.items() if c}

    @staticmethod
    def times(p, q):
        """p * q of polynomials; TooLong past 250 monomials."""
        made = {}
        for m, c in p.items():
            for n, d in q.items():
                powers = dict(m)
                for atom, power in n:
                    powers[atom] = powers.get(atom, 0) + power
                key = tuple(sorted(powers.items()))
                made[key] = made.get(key, 0) + c * d
        if len(made) > 250:
            raise TooLong
        return {m: c for m, c in made.items() if c}

    def atom(self, atom, level):
        """The text of an atom, for a place of a level."""
        if atom[0] == "e" and self.kind(atom[1]) == "rnd":
            return "(" + self.text(atom[1], 1) + " - " + self.text(self.nodes[atom[1]][3], 2) + ")"
        return self.text(atom[1], level)

    def power(self, atom, power):
        """A power by squares, which are never negative."""
        if power == 1:
            return self.atom(atom, 3)
        half = self.power(atom, power // 2)
        return "(%s * %s)" % (half, half) + (" * " + self.atom(atom, 3) if power % 2 else "")

    def horner(self, p, level=0, errors=True):
        """A polynomial as a text: errors apart, the rest by the atom that occurs most."""
        if not p:
            return "0"
        if errors and any(atom[0] == "e" for m in p for atom, _ in m):
            groups = {}
            for m, c in p.items():
                front = tuple(x for x in m if x[0][0] == "e")
                groups.setdefault(front, {})[tuple(x for x in m if x[0][0] != "e")] = c
            parts = []
            for front, rest in sorted(groups.items(), key=lambda g: (len(g[0]), g[0])):
                product = " * ".join(self.power(atom, power) for atom, power in front)
                if not front:
                    parts.append((False, self.horner(rest, 1, False)))
                elif set(rest) == {()}:
                    size = abs(rest[()])
                    text = product if size == 1 else product + " * " + self.number(size, 3)
                    parts.append((rest[()] < 0, text))
                else:
                    parts.append((False, product + " * " + self.horner(rest, 3, False)))
            return self.joined(parts, level)
        if set(p) == {()}:
            return self.number(p[()], level)
        count = {}
        for m in p:
            for atom, _ in m:
                count[atom] = count.get(atom, 0) + 1
        most = max(sorted(count), key=lambda atom: count[atom])
        if count[most] == 1 or len(p) == 1:
            return self.flat(p, level)
        inside, rest = {}, {}
        for m, c in p.items():
            powers = dict(m)
            if most in powers:
                powers[most] -= 1
                inside[tuple(sorted((a, n) for a, n in powers.items() if n))] = c
            else:
                rest[m] = c
        made = self.atom(most, 3) + " * " + self.horner(inside, 3, False)
        if not rest:
            return "(" + made + ")" if level > 2 else made
        more = self.horner(rest, 1, False)
        made += " + " + ("(" + more + ")" if more.startswith("-") else more)
        return "(" + made + ")" if level > 1 else made

    @staticmethod
    def joined(parts, level):
        """A sum of (negative, text), the first that is positive in front."""
        parts = sorted(parts, key=lambda part: part[0])
        made = ""
        for negative, text in parts:
            text = "(" + text + ")" if text.startswith("-") and (made or negative) else text
            made += (
                (" - " if negative else " + ") + text if made else ("-" if negative else "") + text
            )
        return "(" + made + ")" if level > 1 and len(parts) > 1 or level > 2 else made

    def flat(self, p, level):
        """A sum of products."""
        parts = []
        for m, c in sorted(p.items()):
            factors = [self.power(atom, power) for atom, power in m]
            if abs(c) != 1 or not factors:
                factors.insert(0, self.number(abs(c), 3 if factors else 2))
            parts.append((c < 0, " * ".join(factors)))
        made = (
            ("-" if parts[0][0] else "")
            + parts[0][1]
            + "".join((" - " if n else " + ") + t for n, t in parts[1:])
        )
        if len(parts) == 2 and parts[0][0] and not parts[1][0]:
            made = parts[1][1] + " - " + parts[0][1]
        if (
            len(parts) > 1
            and level > 1
            or parts[0][0]
            and level > 2
            or len(parts) == 1
            and level > 2
            and (" * " in made or " / " in made)
        ):
            return "(" + made + ")"
        return made

    # ---- twins

    def touches(self, at, swap):
        """Whether a node has roundings or variables that are swapped for their twins."""
        return any(self.kind(k) == "rnd" or k in swap for k in self.script.below([at]))

    def twin(self, at, swap, level=0, stop=(), top=False):
        """The text of a node without its roundings, its variables swapped for their twins; nodes
        of `stop` as they are."""
        node = self.nodes[at]
        kind = node[0]
        if not top and at in stop or not self.touches(at, swap):
            return self.text(at, level)
        if kind == "var":
            return self.nodes[swap[at]][1]
        if kind == "rnd":
            return self.twin(node[3], swap, level, stop)
        if kind == "abs":
            return "|" + self.twin(node[1], swap, 0, stop) + "|"
        if kind == "neg":
            made, own = "-" + self.twin(node[1], swap, 3, stop), 2
        elif kind in ("add", "sub"):
            made, own = (
                self.twin(node[1], swap, 1, stop)
                + (" + " if kind == "add" else " - ")
                + self.twin(node[2], swap, 2, stop),
                1,
            )
        else:
            made, own = (
                self.twin(node[1], swap, 2, stop)
                + (" * " if kind == "mul" else " / ")
                + self.twin(node[2], swap, 3, stop),
                2,
            )
        if len(made) > 40000:
            raise TooLong
        return "(" + made + ")" if own < level else made

    def twin_node(self, at, swap):
        """The node of `twin`, made if the script hasn't it."""
        node = self.nodes[at]
        if not self.touches(at, swap):
            return at
        if node[0] == "var":
            return swap[at]
        if node[0] == "rnd":
            return self.twin_node(node[3], swap)
        return self.script.node(node[:1] + tuple(self.twin_node(child, swap) for child in node[1:]))
