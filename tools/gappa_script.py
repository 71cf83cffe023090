"""Gappa's formulas and hints, on the expressions of `gappa_text`.

`Gappa(text)` reads a whole script of Gappa 1.4.1: `formula` is an Atom or a Join, `hints` a list of
Hints. What no script of Gappa has raises `Unread` with its byte. Places are bytes; `spans` are
pairs of token numbers.
"""

from collections import namedtuple

from gappa_text import Expressions, Unread

# a proposition: kind is le, ge, in, ask, rel, relask, relabs, fix, flt, eq or ne; left and right
# are nodes, lower and upper fractions, spans those of its expressions and then of its bounds
Atom = namedtuple("Atom", "kind left right lower upper spans start end")
# a formula: kind is and, or, imp or not
Join = namedtuple("Join", "kind parts start end")
# a hint: kind is rewrite, like or split; left and right are nodes, of a split left is a list.
# prop: whether a formula stands before the $
Hint = namedtuple("Hint", "kind left right needs cuts spans prop start end")
# a term after a $: its node, a count of pieces or None, the texts of points or None
Cut = namedtuple("Cut", "node pieces points start end")
FORMULA = ("in", "not", "<=", ">=", "=", "<>", "->", "-/", "/\\", "\\/", "@")


class Gappa(Expressions):
    """What a text of Gappa spells; raises Unread."""

    def __init__(self, text):
        Expressions.__init__(self, text)
        self.parentheses = False    # whether some stand around a formula, or two nots in a row
        self.open = self.take("{")
        self.formula = self.prop()
        self.close = self.take("}")
        self.hints = []
        while self.peek().kind != "end":
            self.hints.append(self.hint())

    def prop(self):
        """A formula; -> groups to the right and binds weakest."""
        first, self.deep = self.at, self.deep + 1
        if self.deep > 200:
            raise Unread(self.peek().start, "nested more than 200 deep")
        made = self.implication(first)
        self.deep -= 1
        return made

    def implication(self, first):
        """A formula, its depth counted."""
        left = self.disjunction()
        if not self.see("->"):
            return left
        self.take()
        right = self.prop()
        return Join("imp", (left, right), *self.span(first))

    def disjunction(self):
        """Conjunctions with \\/ between."""
        return self.chain("or", "\\/", self.conjunction)

    def conjunction(self):
        """Claims with /\\ between."""
        return self.chain("and", "/\\", self.claim)

    def chain(self, kind, sign, part):
        """Parts with a sign between, as one Join, or the only part."""
        first, found = self.at, [part()]
        while self.see(sign):
            self.take()
            found.append(part())
        return found[0] if len(found) == 1 else Join(kind, tuple(found), *self.span(first))

    def claim(self):
        """A proposition, perhaps with `not`s before it, or a formula in parentheses."""
        first = self.at
        if self.word("not"):
            denials = 0
            while self.word("not"):
                self.take()
                denials += 1
            self.parentheses = self.parentheses or denials > 1
            inner = self.claim()
            for _ in range(2 - denials % 2):
                inner = Join("not", (inner,), *self.span(first))
            return inner
        if self.see("(") and self.formula_inside():
            self.take("(")
            self.parentheses = True
            inner = self.prop()
            self.take(")")
            return inner
        return self.atom()

    def formula_inside(self):
        """Whether the parentheses that open here hold a formula; no expression has its signs."""
        depth = 0
        for token in self.tokens[self.at:]:
            depth += {"(": 1, ")": -1}.get(token.text, 0)
            if depth == 0 or token.kind == "end":
                return False
            if token.text in FORMULA:
                return True
        return False

    def marked(self):
        """What `back` needs to return here."""
        return (self.at, self.deep, list(self.edits), list(self.notes), list(self.unserved),
                dict(self.variables))

    def back(self, kept):
        """Forgets what was read since `marked`; nodes may stay."""
        (self.at, self.deep, self.edits, self.notes, self.unserved, self.variables) = kept

    def atom(self):
        """A proposition without connectives."""
        first = self.at
        if self.see("@"):
            return self.multiple(first)
        if self.see("|"):
            kept = self.marked()
            try:
                return self.relative_bars(first)
            except Unread:
                self.back(kept)
        begin = self.at
        left = self.expr()
        spans = [(begin, self.at)]
        if self.see("<=", ">="):
            kind = "le" if self.take().text == "<=" else "ge"
            begin = self.at
            bound = self.signed()
            spans.append((begin, self.at))
            lower, upper = (None, bound) if kind == "le" else (bound, None)
            return Atom(kind, left, None, lower, upper, spans, *self.span(first))
        if self.see("=", "<>"):
            kind = "eq" if self.take().text == "=" else "ne"
            begin = self.at
            right = self.expr()
            spans.append((begin, self.at))
            return Atom(kind, left, right, None, None, spans, *self.span(first))
        kind, right = "in", None
        if self.see("-/"):
            self.take()
            begin = self.at
            kind, right = "rel", self.expr()
            spans.append((begin, self.at))
        if not self.word("in"):
            raise self.unexpected("expected in, <=, >=, = or <>")
        self.take()
        if self.see("?"):
            self.take()
            kind = "ask" if kind == "in" else "relask"
            return Atom(kind, left, right, None, None, spans, *self.span(first))
        self.take("[")
        begin = self.at
        lower = self.signed()
        spans.append((begin, self.at))
        self.take(",")
        begin = self.at
        upper_at = self.peek().start
        upper = self.signed()
        spans.append((begin, self.at))
        self.take("]")
        if lower > upper:
            raise Unread(upper_at, "the range is empty")
        return Atom(kind, left, right, lower, upper, spans, *self.span(first))

    def relative_bars(self, first):
        """|a -/ b| <= n."""
        self.take("|")
        begin = self.at
        left = self.expr()
        spans = [(begin, self.at)]
        self.take("-/")
        begin = self.at
        right = self.expr()
        spans.append((begin, self.at))
        self.take("|")
        self.take("<=")
        begin = self.at
        bound = self.number()
        spans.append((begin, self.at))
        return Atom("relabs", left, right, -bound, bound, spans, *self.span(first))

    def multiple(self, first):
        """@FIX(e,k) or @FLT(e,k)."""
        self.take("@")
        name = self.take(kind="name")
        if name.text not in ("FIX", "FLT"):
            raise Unread(name.start, "expected FIX or FLT")
        self.take("(")
        begin = self.at
        left = self.expr()
        spans = [(begin, self.at)]
        self.take(",")
        begin = self.at
        power = self.whole()
        spans.append((begin, self.at))
        self.take(")")
        return Atom(name.text.lower(), left, None, power, None, spans, *self.span(first))

    # ---- hints

    def hint(self):
        """A hint: a -> b, a ~ b, or a split."""
        first = self.at
        if self.see("$"):
            return self.split(first, [], [])
        kept = self.marked()
        try:
            left, spans = [], []
            while True:
                begin = self.at
                left.append(self.expr())
                spans.append((begin, self.at))
                if not self.see(","):
                    break
                self.take(",")
            if self.see("$"):
                return self.split(first, left, spans)
            if len(left) > 1 or not self.see("->", "~"):
                raise self.unexpected("expected ->, ~ or $")
        except Unread as fault:
            self.back(kept)
            try:
                self.prop()
            except Unread as other:
                raise max(fault, other, key=lambda it: it.at)
            if not self.see("$"):
                raise fault
            return self.split(first, [], [], True)
        kind = "rewrite" if self.take().text == "->" else "like"
        begin = self.at
        right = self.expr()
        spans.append((begin, self.at))
        needs = self.needs() if kind == "rewrite" and self.see("{") else []
        self.take(";")
        return Hint(kind, left[0], right, needs, [], spans, False, *self.span(first))

    def needs(self):
        """The constraints of a rewriting hint."""
        self.take("{")
        found = []
        while True:
            begin = self.at
            node = self.expr()
            start, end = self.span(begin)
            if not self.see("<>", "<=", ">=", "<", ">"):
                raise self.unexpected("expected <>, <=, >=, < or >")
            sign = self.take()
            number = self.peek().start
            bound = self.signed()
            if sign.text == "<>" and bound != 0:
                self.edit(start, start, "(")
                self.edit(end, self.tokens[self.at - 1].end,
                          ") - (%s) <> 0" % self.edited(number, self.tokens[self.at - 1].end))
            found.append((node, sign.text, bound))
            if not self.see(","):
                break
            self.take(",")
        self.take("}")
        return found

    def split(self, first, left, spans, prop=False):
        """The terms after a $."""
        self.take("$")
        cuts = []
        while True:
            begin = self.at
            node = self.expr()
            start, end = self.span(begin)
            pieces = points = None
            if self.word("in"):
                self.take()
                if self.see("("):
                    self.take()
                    points = [self.point()]
                    while self.see(","):
                        self.take()
                        points.append(self.point())
                    self.take(")")
                else:
                    token = self.take(kind="number")
                    if not token.text.isdigit() or int(token.text) == 0:
                        raise Unread(token.start, "expected how many pieces")
                    pieces = int(token.text)
            cuts.append(Cut(node, pieces, points, start, end))
            if not self.see(","):
                break
            self.take(",")
        self.take(";")
        return Hint("split", left, None, [], cuts, spans, prop, *self.span(first))

    def point(self):
        """The text of a point of a cut."""
        begin = self.at
        self.signed()
        return self.edited(*self.span(begin))
