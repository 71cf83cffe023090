"""Hints that may help a script, by pattern: what `hints` proposes first. Each is judged by the
program, so none is trusted."""

from hint_texts import Texts, TooLong
from script_text import children


class Patterns(Texts):
    """The patterns over one script; each gives functions that make the text of a hint."""

    # ---- the patterns; each gives texts of hints

    def all_of(self, *names):
        """The hints of the patterns named, each once; what is too long is left out."""
        found = {}
        for name in names:
            for make in getattr(self, name)():
                try:
                    found[make()] = True
                except TooLong:
                    pass
        return [hint for hint in found if len(hint) < 50000]

    def error_expansion(self):
        """Each goal over rounding errors and known differences, the rest in Horner's form."""
        for goal in self.script.goals:
            if goal.kind in ("in", "le", "ge") and self.has_rounding(goal.left):
                yield lambda e=goal.left: "%s -> %s;" % (
                    self.text(e),
                    self.horner(self.polynomial(e, "delta")),
                )

    def quotients(self):
        """A difference of quotients by the same divisor as a quotient."""
        for a, b in self.pairs:
            x, y = self.nodes[a], self.nodes[b]
            if x[0] == y[0] == "div" and x[2] == y[2]:
                need = "" if self.kind(x[2]) == "lit" else " { %s <> 0 }" % self.text(x[2])
                yield lambda a=a, b=b, x=x, y=y, need=need: "%s - %s -> (%s - %s) / %s%s;" % (
                    self.text(a, 1, True),
                    self.text(b, 2, True),
                    self.text(x[1], 1),
                    self.text(y[1], 2),
                    self.text(x[2], 3),
                    need,
                )

    def first_of_sum(self):
        """An operand of a sum, difference or product that a hypothesis bounds."""
        forms = {
            "add": (("{a} -> ({A} + {B}) - {B};", "{b} -> ({A} + {B}) - {A};")),
            "sub": (("{a} -> ({A} - {B}) + {B};", "{b} -> {A} - ({A} - {B});")),
            "mul": (
                ("{a} -> {C} * {D} / {D} {{ {b} <> 0 }};", "{b} -> {C} * {D} / {E} {{ {a} <> 0 }};")
            ),
        }
        for at in dict.fromkeys(c.left for c in self.hypotheses if c.kind in ("in", "le", "ge")):
            node = self.nodes[at]
            for side, form in enumerate(forms.get(node[0], ())):
                if self.kind(node[1 + side]) != "lit":
                    yield lambda form=form, a=node[1], b=node[-1]: form.format(
                        a=self.text(a),
                        b=self.text(b),
                        A=self.text(a, 1),
                        B=self.text(b, 2),
                        C=self.text(a, 2),
                        D=self.text(b, 3),
                        E=self.text(a, 3),
                    )

    def powers_of_two(self):
        """A quotient by 2^k as a product, of which multiples are known."""
        for at, node in enumerate(list(self.nodes)):
            if node[0] == "div" and self.kind(node[2]) == "lit" and self.nodes[node[2]][1] > 0:
                value = self.nodes[node[2]][1]
                if (
                    value != 1
                    and not value.numerator & (value.numerator - 1)
                    and not value.denominator & (value.denominator - 1)
                ):
                    yield lambda at=at, a=node[1], v=value: "%s -> %s * %s;" % (
                        self.text(at, 0, True),
                        self.text(a, 2),
                        self.number(1 / v, 3),
                    )

    def whole_quotient(self):
        """r - N / c as (c * r - N) / c, where multiples bound c * r - N."""
        for a, b in self.pairs:
            node = self.nodes[b]
            if (
                node[0] == "div"
                and self.kind(node[2]) == "lit"
                and node[2] != a
                and self.kind(a) != "div"
                and self.nodes[node[2]][1].denominator == 1
                and self.nodes[node[2]][1].numerator & (self.nodes[node[2]][1].numerator - 1)
            ):
                yield lambda a=a, b=b, n=node[1], c=node[2]: "%s - %s -> (%s * %s - %s) / %s;" % (
                    self.text(a, 1),
                    self.text(b, 2, True),
                    self.text(c, 2),
                    self.text(a, 3),
                    self.text(n, 2),
                    self.text(c, 3),
                )
                yield lambda a=a, b=b, n=node[1], c=node[2]: "%s * %s - %s -> %s * (%s - %s);" % (
                    self.text(c, 2),
                    self.text(a, 3),
                    self.text(n, 2),
                    self.text(c, 2),
                    self.text(a, 1),
                    self.text(b, 2, True),
                )

    def cancelled(self):
        """A divisor that a factor cancels."""
        for at, node in enumerate(list(self.nodes)):
            if node[0] == "mul":
                for quotient, other in (node[1:], node[:0:-1]):
                    x = self.nodes[quotient]
                    if x[0] == "div" and x[2] == other:
                        yield lambda at=at, a=x[1], b=other: "%s -> %s { %s <> 0 };" % (
                            self.text(at, 0, True),
                            self.text(a),
                            self.text(b),
                        )
            if (
                node[0] == "div"
                and self.kind(node[1]) == "mul"
                and node[2] in self.nodes[node[1]][1:]
            ):
                left, right = self.nodes[node[1]][1:]
                other = right if left == node[2] else left
                yield lambda at=at, a=other, b=node[2]: "%s -> %s { %s <> 0 };" % (
                    self.text(at, 0, True),
                    self.text(a),
                    self.text(b),
                )

    def local_twin(self):
        """Each named value like its definition without the roundings inside it."""
        stop = set(self.name)
        for at in self.name:
            if self.kind(at) not in ("var", "lit") and self.has_rounding(at):
                if self.kind(at) != "rnd" or self.inner_rounding(self.nodes[at][3], stop):
                    near = self.twin_or_none(at, stop)
                    if near is not None and near != self.text(at, top=True):
                        yield lambda at=at, near=near: "%s ~ %s;" % (self.text(at), near)

    def twin_or_none(self, at, stop):
        """The text of a twin; nothing if it is too long."""
        try:
            return self.twin(at, {}, 0, stop, True)
        except TooLong:
            return None

    def inner_rounding(self, at, stop):
        """Whether a rounding stands below a node, up to the nodes of `stop`."""
        if at in stop:
            return False
        return self.kind(at) == "rnd" or any(
            self.inner_rounding(child, stop) for child in children(self.nodes[at])
        )

    def negated_square(self):
        """A product of a value and its negation as a negated square."""
        for node in list(self.nodes):
            if node[0] == "mul":
                a, b = node[1:]
                for x, y in ((a, b), (b, a)):
                    if self.nodes[x] == ("neg", y):
                        yield lambda a=a, b=b, y=y: "%s * %s -> -(%s * %s);" % (
                            self.text(a, 2),
                            self.text(b, 3),
                            self.text(y, 2),
                            self.text(y, 3),
                        )
                if (
                    self.kind(a) == self.kind(b) == "sub"
                    and self.nodes[a][1:] == self.nodes[b][:0:-1]
                ):
                    yield lambda a=a, b=b: "%s * %s -> -(%s * %s);" % (
                        self.text(a, 2),
                        self.text(b, 3),
                        self.text(a, 2),
                        self.text(a, 3),
                    )

    def reversed_difference(self):
        """A difference by that of the other order, if this one is compared."""
        for node in list(self.nodes):
            if node[0] == "sub":
                a, b = node[1:]
                if (b, a) in self.pairs or self.has_rounding(b) and not self.has_rounding(a):
                    yield lambda a=a, b=b: "%s - %s -> -(%s - %s);" % (
                        self.text(a, 1),
                        self.text(b, 2),
                        self.text(b, 1),
                        self.text(a, 2),
                    )

    def turned_pair(self):
        """A pair of a relative hypothesis in the other order."""
        for claim in self.hypotheses:
            if claim.kind == "rel":
                yield lambda claim=claim: "%s ~ %s;" % (
                    self.text(claim.right),
                    self.text(claim.left),
                )

    def relative_quotient(self):
        """(x - y) / y as x / y - 1."""
        for at, node in enumerate(list(self.nodes)):
            if (
                node[0] == "div"
                and self.kind(node[1]) == "sub"
                and self.nodes[node[1]][2] == node[2]
            ):
                yield lambda at=at, a=self.nodes[node[1]][1], b=node[
                    2
                ]: "%s -> %s / %s - 1 { %s <> 0 };" % (
                    self.text(at, 0, True),
                    self.text(a, 2),
                    self.text(b, 3),
                    self.text(b),
                )

    def mediant(self):
        """a / (a + b) with each operand once."""
        for at, node in enumerate(list(self.nodes)):
            if (
                node[0] == "div"
                and self.kind(node[2]) == "add"
                and node[1] in self.nodes[node[2]][1:]
            ):
                left, right = self.nodes[node[2]][1:]
                other = right if node[1] == left else left
                yield lambda at=at, o=other, q=node[2]: "%s -> 1 - %s / %s { %s <> 0 };" % (
                    self.text(at, 0, True),
                    self.text(o, 2),
                    self.text(q, 3),
                    self.text(q),
                )
                yield lambda at=at, o=other, q=node[2], a=node[
                    1
                ]: "%s -> 1 / (1 + %s / %s) { %s <> 0, %s <> 0 };" % (
                    self.text(at, 0, True),
                    self.text(o, 2),
                    self.text(a, 3),
                    self.text(a),
                    self.text(q),
                )

    def difference_over_sum(self):
        """(a - b) / (a + b) with each operand once."""
        for at, node in enumerate(list(self.nodes)):
            if node[0] == "div" and self.kind(node[1]) == "sub" and self.kind(node[2]) == "add":
                a, b = self.nodes[node[1]][1:]
                if sorted((a, b)) == sorted(self.nodes[node[2]][1:]):
                    yield lambda at=at, a=a, b=b, q=node[
                        2
                    ]: "%s -> 1 - 2 / (1 + %s / %s) { %s <> 0, %s <> 0 };" % (
                        self.text(at, 0, True),
                        self.text(a, 2),
                        self.text(b, 3),
                        self.text(b),
                        self.text(q),
                    )

    def product_over_sum(self):
        """a * b / (a + b) by reciprocals, so that each operand occurs once."""
        for at, node in enumerate(list(self.nodes)):
            if node[0] == "div" and self.kind(node[1]) == "mul" and self.kind(node[2]) == "add":
                a, b = self.nodes[node[1]][1:]
                if sorted((a, b)) == sorted(self.nodes[node[2]][1:]):
                    yield lambda at=at, a=a, b=b, q=node[
                        2
                    ]: "%s -> 1 / (1 / %s + 1 / %s) { %s <> 0, %s <> 0, %s <> 0 };" % (
                        self.text(at, 0, True),
                        self.text(a, 3),
                        self.text(b, 3),
                        self.text(a),
                        self.text(b),
                        self.text(q),
                    )

    def completed_square(self):
        """A polynomial of degree 2 in one operand, which occurs in a square alone then."""
        for at, node in enumerate(list(self.nodes)):
            if node[0] in ("add", "sub", "mul"):
                try:
                    p = self.polynomial(at, "keep")
                except TooLong:
                    continue
                atoms = {atom for m in p for atom, _ in m}
                if len(atoms) == 1 and all(power <= 2 for m in p for _, power in m):
                    x = atoms.pop()
                    a, b, c = p.get(((x, 2),), 0), p.get(((x, 1),), 0), p.get((), 0)
                    if a and b:
                        yield lambda at=at, x=x, a=a, b=b, c=c: self.square_text(at, x, a, b, c)

    def square_text(self, at, x, a, b, c):
        """The hint for a * x^2 + b * x + c as a completed square."""
        inner = "(%s%s)" % (self.atom(x, 1), self.added(b / (2 * a)))
        square = "%s * %s" % (inner, inner)
        if a != 1:
            square = "-(%s)" % square if a == -1 else "%s * (%s)" % (self.number(a, 3), square)
        return "%s -> %s%s;" % (self.text(at), square, self.added(c - b * b / (4 * a)))

    def added(self, exact):
        """A number as what is added to a text; nothing of 0."""
        return "" if exact == 0 else (" - " if exact < 0 else " + ") + self.number(abs(exact), 2)

    def whole_twin(self):
        """A goal's side like itself without roundings, and the exact difference of the two."""
        swap = self.twins()
        for goal in self.script.goals:
            node = self.nodes[goal.left]
            y, exact = (
                (goal.left, goal.right)
                if goal.kind == "rel"
                else node[1:]
                if node[0] == "sub"
                else (None, None)
            )
            if y is None or not self.touches(y, swap):
                continue
            try:
                near = self.twin(y, swap)
                gap = self.plus(
                    self.polynomial(y, "drop", swap),
                    self.polynomial(exact, "drop" if self.has_rounding(exact) else "keep"),
                    -1,
                )
                gap = (self.horner(gap), self.horner(gap, 2)) if gap else ("0", "")
            except TooLong:
                continue
            right, left = self.text(exact, 2), self.text(y, 1)
            if near.strip("()") == right.strip("()"):
                continue
            lines = ["%s ~ %s;" % (self.text(y), near)]
            if goal.kind == "rel":
                lines.append("%s ~ %s;" % (near, self.text(exact)))
            if not self.has_rounding(exact):
                lines.append("(%s) - %s -> %s;" % (near, right, gap[0]))
                if goal.kind != "rel":
                    lines.append(
                        "%s - %s -> (%s - (%s))%s;"
                        % (left, right, left, near, " + " + gap[1] if gap[1] else "")
                    )
            for line in lines:
                yield lambda line=line: line

    def collected(self):
        """Goals and named values in Horner's form, roundings as they are."""
        roots = [
            side
            for goal in self.script.goals
            for side in (goal.left, goal.right)
            if side is not None
        ]
        for root in dict.fromkeys(roots + list(self.name)):
            if self.kind(root) not in ("var", "lit", "rnd") and any(
                self.kind(k) == "var" for k in self.script.below([root])
            ):
                made, now = self.collected_text(root), self.text(root, top=True)
                if made is not None and made not in (now, "(%s)" % now):
                    yield lambda made=made, now=now: "%s -> %s;" % (now, made)

    def collected_text(self, root):
        """A node in Horner's form; nothing if it is too long."""
        try:
            return self.horner(self.polynomial(root, "keep"), errors=False)
        except TooLong:
            return None

    # ---- splits

    def uses(self):
        """The variables of the goals with a range in every case, those that occur most first."""
        memo = {}

        def count(at):
            if at not in memo:
                found = {self.nodes[at][1]: 1} if self.kind(at) == "var" else {}
                for child in children(self.nodes[at]):
                    for name, times in count(child).items():
                        found[name] = found.get(name, 0) + times
                memo[at] = found
            return memo[at]

        total = {}
        for goal in self.script.goals:
            for side in (goal.left, goal.right):
                for name, times in (count(side) if side is not None else {}).items():
                    total[name] = total.get(name, 0) + times

        def ranged(name):
            node = self.script.variables[name]
            return any(
                all(
                    any(c.kind == "in" and c.left == node and c.lower < c.upper for c in some)
                    for some in part
                )
                for part in self.script.parts
            )

        return [name for name in sorted(total, key=lambda name: -total[name]) if ranged(name)]
