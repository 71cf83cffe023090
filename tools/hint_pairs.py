"""Hints from known pairs: a difference is written over the differences of its operands, one level
down.

A pair is an expression a with roundings or errors in it and its exact twin A. Pairs are read from
goals and hypotheses `a - A` and `a -/ A`, and found among the expressions by values: a without its
roundings, its variables swapped for their twins, has the value of A at a random point. Each
difference of a pair then is e - E = (a - A) * .. + .., which stays small since its operands aren't
written out. All hints are texts; the program judges them.
"""

import random
from fractions import Fraction

from hint_patterns import Patterns
from hint_texts import TooLong
from script_text import Script, children

PRIME = (1 << 61) - 1


def turned(value):
    """The inverse of a value modulo the prime; nothing of 0."""
    return pow(value, PRIME - 2, PRIME) if value % PRIME else None


class Pairs(Patterns):
    """The pairs of one script. `exact` maps a node to the value of its exact twin at a random
    point modulo a prime (None: no value), `plain` a node to its own, roundings as unknowns.
    `twin_of` gives the twins of a node, the best first."""

    def __init__(self, script):
        """`script` is a Script; it stays as it is, since nodes are added to a copy."""
        Patterns.__init__(self, Script(script.text))
        self.swap, self.known = {}, {}
        self.ties = self.tied()
        for claim in self.hypotheses:
            node = self.nodes[claim.left]
            pair = node[1:] if node[0] == "sub" else None
            pair = (claim.left, claim.right) if claim.kind == "rel" else pair
            if pair is not None and claim.kind in ("in", "rel") and self.is_error(pair, claim):
                self.known.setdefault(pair, claim)
        for (a, b), claim in self.known.items():
            if (
                self.kind(a) == self.kind(b) == "var"
                and not self.fixed(claim)
                and a not in self.swap
                and b not in self.swap
            ):
                self.swap[a] = b
        self.bounded = {
            c.left
            for c in self.hypotheses
            if self.kind(c.left) in ("add", "sub", "mul")
            and self.nodes[c.left][1:] not in self.known
            or c.kind in ("le", "ge")
        }
        self.bounded = {at for at in self.bounded if self.kind(at) != "var"}
        self.exact, self.plain = {}, {}
        chance = random.Random(7)
        self.seeds = [chance.randrange(1, PRIME) for _ in range(len(self.nodes))]
        for at in range(len(self.nodes)):
            self.value_of(at, self.plain, False, set())
            self.value_of(at, self.exact, True, set())
        self.same = {}
        for at in range(len(self.nodes)):
            if self.exact[at] is not None:
                self.same.setdefault(self.exact[at], []).append(at)

    @staticmethod
    def fixed(claim):
        """Whether a hypothesis gives one value."""
        return claim.kind == "in" and claim.lower == claim.upper

    def is_error(self, pair, claim):
        """Whether a hypothesis on a difference speaks of a value and its twin: the second is no
        word of a grid, and has no range, or one that is wide beside the difference."""
        if claim.kind == "rel" or self.fixed(claim):
            return True
        words = {c.left for c in self.hypotheses if c.kind == "fix"}
        ranges = self.script.ranges()
        if pair[1] in words and pair[0] in words or self.kind(pair[1]) == "lit":
            return False
        sides = [
            ranges[self.nodes[at][1]]
            for at in pair
            if self.kind(at) == "var" and self.nodes[at][1] in ranges
        ]
        return (
            all(claim.upper - claim.lower <= (high - low) / 16 for low, high in sides)
            or len(sides) < 2
            and (
                pair[1] not in words
                and all(claim.upper - claim.lower <= (high - low) / 2 for low, high in sides)
            )
        )

    def tied(self):
        """Variables that a hypothesis `v - e in [c,c]` ties to an expression in some case: {v:
        [(part, place, e, sign)]}, sign 1 for v - e and -1 for e - v."""
        found, claims = {}, []
        for place, claim in self.script.hypotheses():
            node = self.nodes[claim.left]
            if self.fixed(claim) and node[0] == "sub" and not claim.negated:
                claims.append((place, node))
        for place, (_, a, b) in claims:
            sides = [(a, b, 1), (b, a, -1)]
            sides = [
                s
                for s in sides
                if self.kind(s[0]) == "var" and s[0] not in self.script.below([s[1]])
            ]
            for v, e, sign in sides[:1]:
                if not any(
                    v in self.script.below([t[2]])
                    for w in found
                    for t in found[w]
                    if w in self.script.below([e])
                ):
                    found.setdefault(v, []).append((place[0], place[1], e, sign))
        return found

    # ---- values at a random point

    def value_of(self, at, memo, exactly, busy):
        """The value of a node, memoised; `exactly` without roundings and over twins."""
        if at in memo:
            return memo[at]
        node = self.nodes[at]
        kind = node[0]
        if kind == "lit":
            made = node[1].numerator * (turned(node[1].denominator) or 0) % PRIME
        elif kind == "var":
            made = self.seeds[self.swap.get(at, at) if exactly else at]
            if (
                exactly
                and at in self.ties
                and at not in self.swap
                and at not in self.swap.values()
                and at not in busy
            ):
                inner = [self.value_of(t[2], memo, True, busy | {at}) for t in self.ties[at]]
                if None not in inner and len(inner) == 1 and self.script.cases() == 1:
                    made = inner[0]
                elif None not in inner:
                    made = 3
                    for value in sorted(set(inner)):
                        made = (made * 1000003 + value) % PRIME
        else:
            inner = [self.value_of(child, memo, exactly, busy) for child in children(node)]
            made = None if None in inner else self.combined(at, node, inner, exactly)
        memo[at] = made
        return made

    def combined(self, at, node, inner, exactly):
        """The value of a node by those of its operands."""
        kind = node[0]
        if kind == "rnd":
            return inner[0] if exactly else self.seeds[at]
        if kind == "neg":
            return -inner[0] % PRIME
        if kind == "abs":
            return pow(inner[0], 4, PRIME) * 3 + pow(inner[0], 2, PRIME) * 5 + 11
        a, b = inner
        if kind in ("add", "sub"):
            return (a + b if kind == "add" else a - b) % PRIME
        if kind == "mul":
            return a * b % PRIME
        below = turned(b)
        return None if below is None else a * below % PRIME

    def twin_of(self, at):
        """The exact twins of a node, those of hypotheses first, then named ones; none of a node
        that is its own."""
        found = [b for (a, b) in self.known if a == at and not self.fixed(self.known[a, b])]
        if self.kind(at) == "var" and at in self.swap:
            return found or [self.swap[at]]
        if self.exact.get(at) is not None and self.plain[at] != self.exact[at]:
            others = [b for b in self.same[self.exact[at]] if b != at and self.stands_exact(b)]
            found += sorted((b for b in others if b not in found), key=lambda b: b not in self.name)
        return found

    def stands_exact(self, at):
        """Whether a node can be an exact side: no roundings, and each variable is one of twins or
        has none."""
        return not any(self.kind(k) == "rnd" or k in self.swap for k in self.script.below([at]))

    # ---- differences

    def level(self, at, stops, kept=()):
        """A node as a polynomial over stops, nodes that are kept, variables and errors of
        roundings. TooLong if there are too many monomials, or a divisor that isn't a number."""
        memo = {}

        def of(node):
            if node not in memo:
                stop = node != at and (node in stops or node in kept)
                memo[node] = {((("v", node), 1),): Fraction(1)} if stop else self.opened(node, of)
            return memo[node]

        return of(at)

    def opened(self, at, of):
        """A node as a polynomial, its operands by the function `of`."""
        node = self.nodes[at]
        kind = node[0]
        if kind == "lit":
            return {(): node[1]} if node[1] else {}
        if kind in ("var", "abs"):
            return {((("v" if kind == "var" else "n", at), 1),): Fraction(1)}
        if kind == "neg":
            return {m: -c for m, c in of(node[1]).items()}
        if kind == "rnd":
            return self.plus(of(node[3]), {((("e", at), 1),): Fraction(1)}, 1)
        a, b = of(node[1]), of(node[2])
        if kind in ("add", "sub"):
            made = self.plus(a, b, 1 if kind == "add" else -1)
            if len(made) > 250:
                raise TooLong
            return made
        if kind == "mul":
            return self.times(a, b)
        if set(b) == {()}:
            return {m: c / b[()] for m, c in a.items()}
        raise TooLong

    def operands(self, at):
        """The named nodes with a twin at which a one-level expansion stops, the first on each way
        down."""
        found, todo, seen = [], list(children(self.nodes[at])), set()
        while todo:
            node = todo.pop()
            if node in seen:
                continue
            seen.add(node)
            if node in self.name and self.twin_of(node):
                found.append(node)
            else:
                todo += children(self.nodes[node])
        return sorted(found)

    def gap(self, a, b):
        """The node a - b, made if the script hasn't it, so that it can be an atom."""
        return self.script.node(("sub", a, b))

    def swapped(self, p, swap):
        """A polynomial with atoms ("v", node) replaced by polynomials."""
        made = {}
        for m, c in p.items():
            term = {(): c}
            for atom, power in m:
                factor = swap.get(atom, {((atom, 1),): Fraction(1)})
                for _ in range(power):
                    term = self.times(term, factor)
            made = self.plus(made, term, 1)
        return made

    def differences_of(self, e, exact, kept=()):
        """The polynomials of e - E over known differences, and the pairs that they speak of."""
        stops = (
            {a: self.twin_of(a)[0] for a in self.operands(e)} if self.stands_exact(exact) else {}
        )
        below = self.script.below([exact]) - {exact}
        for a in stops:
            near = [b for b in self.twin_of(a) if b in below]
            stops[a] = near[0] if near else stops[a]
        for _ in range(6):
            p = self.level(e, set(stops), kept)
            q = self.level(exact, set(stops.values()), kept)
            held = {atom[1] for m in q for atom, _ in m}
            lost = [a for a, b in stops.items() if b not in held and self.kind(a) != "var"]
            if not lost:
                break
            for a in lost:
                del stops[a]
                for inner in self.operands(a):
                    near = [b for b in self.twin_of(inner) if b in below]
                    stops[inner] = near[0] if near else self.twin_of(inner)[0]
        one, two, pairs = {}, {}, []
        for a, b in stops.items():
            if a == b:
                continue
            step = {((("e", self.gap(a, b)), 1),): Fraction(1)}
            one["v", a] = self.plus({((("v", b), 1),): Fraction(1)}, step, 1)
            two["v", b] = self.plus({((("v", a), 1),): Fraction(1)}, step, -1)
            pairs.append((a, b))
        forms = [self.plus(self.swapped(p, one), q, -1), self.plus(p, self.swapped(q, two), -1)]
        return forms, pairs

    def roots(self, goals):
        """The pairs of the goals, given by their left nodes."""
        found = {}
        for goal in (
            self.script.goals
            if goals is None
            else [g for g in self.script.goals if g.left in goals]
        ):
            node = self.nodes[goal.left]
            if goal.kind == "rel":
                found[goal.left, goal.right] = True
            elif node[0] == "sub":
                found[node[1:]] = True
            for at in sorted(self.script.below([goal.left])) if node[0] != "sub" else ():
                if self.kind(at) == "sub" and self.nodes[at][2] in self.twin_of(self.nodes[at][1]):
                    found[self.nodes[at][1:]] = True
        return list(found)

    def pair_hints(self, goals=None, limit=40):
        """The hints for goals (left nodes; all if none are given), and the polynomials that they
        say, None of a chain: [(left text, polynomial, hint)]."""
        todo, done, made = self.roots(goals), set(), []
        while todo and len(made) < limit:
            a, b = todo.pop(0)
            if (a, b) in done or a == b:
                continue
            done.add((a, b))
            left = "%s - %s" % (self.text(a, 1), self.text(b, 2))
            known = (a, b) in self.known and not self.fixed(self.known[a, b])
            if known and self.kind(a) == "var":
                continue
            forms, pairs = [], []
            for kept in ((), self.bounded) if self.bounded else ((),):
                try:
                    more, pairs = (
                        self.differences_of(a, b, kept) if a not in self.ties else ([], [])
                    )
                    forms += more
                except TooLong:
                    continue
            left_over = [sum(all(atom[0] != "e" for atom, _ in m) for m in p) for p in forms]
            forms = [p for p, count in zip(forms, left_over) if count == min(left_over)]
            for p in forms:
                try:
                    line = "%s -> %s;" % (left, self.horner(p))
                except TooLong:
                    continue
                if all(line != old for _, _, old in made) and line != "%s -> %s;" % (left, left):
                    made.append((left, p, line))
            for line, more in self.chains(a, b):
                made.append((left, None, line))
                todo += more
            todo += pairs
        return made

    def chains(self, a, b):
        """A difference of tied variables by what they are tied to: hints, and the pairs that these
        speak of."""
        for tie in self.ties.get(a, ()):
            for other in self.ties.get(b, [(None, None, b, 0)]):
                if tie[0] == other[0] and tie[1] != other[1]:
                    continue
                v, w = tie[2], other[2]
                first, last = self.tie_text(a, tie, 1), self.tie_text(b, other, -1)
                for middle, more in self.middles(v, w):
                    yield "%s - %s -> %s%s%s;" % (
                        self.text(a, 1),
                        self.text(b, 2),
                        middle,
                        first,
                        last,
                    ), more

    def tie_text(self, v, tie, sign):
        """What a variable has beside the expression that it is tied to, added or (sign -1)
        subtracted."""
        if tie[3] == 0:
            return ""
        a, b = (v, tie[2]) if tie[3] == 1 else (tie[2], v)
        return " %s (%s - %s)" % ("+" if tie[3] == sign else "-", self.text(a, 1), self.text(b, 2))

    def middles(self, v, w):
        """Texts of v - w: a pair as it is, and a pair of the other sign by twice one of the two."""
        if self.exact.get(v) is None or self.exact.get(w) is None:
            return
        if self.exact[v] == self.exact[w] or v == w:
            yield "(%s - %s)" % (self.text(v, 1), self.text(w, 2)), [(v, w)]
        elif (self.exact[v] + self.exact[w]) % PRIME == 0:
            bare, near = self.bare(v), self.bare(w)
            if bare != v:
                yield "-(%s - %s) - 2 * %s" % (
                    self.text(bare, 1),
                    self.text(near, 2),
                    self.text(near, 3),
                ), [(bare, near)]
                yield "(%s - %s) - 2 * %s" % (
                    self.text(bare, 1),
                    self.text(near, 2),
                    self.text(bare, 3),
                ), [(bare, near)]
            else:
                yield "(%s - %s) + 2 * %s" % (
                    self.text(bare, 1),
                    self.text(near, 2),
                    self.text(near, 3),
                ), [(bare, near)]
                yield "-(%s - %s) + 2 * %s" % (
                    self.text(bare, 1),
                    self.text(near, 2),
                    self.text(bare, 3),
                ), [(bare, near)]

    def bare(self, at):
        """What a negation negates; another node itself."""
        return self.nodes[at][1] if self.kind(at) == "neg" else at
