"""Tokens, grammar and limits of scripts: docs/FORMATS.md, "Tokens" to "Refusals".

A node is a tuple: ("var", number), ("lit", whole number, power of 2, power of 10), ("neg", n),
("abs", n), ("add", n, m), ("sub", ..), ("mul", ..), ("div", ..) or ("rnd", direction, lsb, n).
A slot is what a fact is of: ("BND", n), ("ABS", n), ("REL", n, m), ("FIX", n), ("NZR", n) or
("VOID",). A fact is a slot and its value.
"""
import re
from fractions import Fraction

from .grid import DIRECTIONS, INF, UNIT, finite, outward

TOKEN = re.compile(r"""
    (?P<blank>[ \t\r\n]+|\#[^\n]*)
  | (?P<literal>(?:0x[0-9a-fA-F]+(?:\.[0-9a-fA-F]+)?(?:p[+-]?[0-9]+)?|[0-9]+b[+-]?[0-9]+
      |[0-9]+(?:\.[0-9]+)?(?:e[+-]?[0-9]+)?)(?![A-Za-z0-9_]))
  | (?P<name>[A-Za-z_][A-Za-z0-9_]*)
  | (?P<sign><=|>=|<>|->|-/|/\\|\\/|[{}()\[\],;=+\-*/|<>?$~@])""", re.VERBOSE)
RESERVED = ("in", "not", "fixed", "int", "fma", "float", "sqrt")
NAME, LITERAL = "<name>", "<literal>"  # kinds, which no word spells
FORMS = {"p": (2, 16, 4, 25, -512, 512), "b": (2, 10, 1, 30, -512, 512),
         "e": (10, 10, 1, 30, -30, 8)}
LIMITS = {"open signs": 64, "definitions": 256, "propositions": 128, "hints": 64, "nodes": 512,
          "cuts": 4, "halved variables": 4, "cases": 64}
SUMS, PRODUCTS = {"+": "add", "-": "sub"}, {"*": "mul", "/": "div"}


class Refused(Exception):
    """The text spells no script: why, and the byte of a token that shows it."""


def tokens_of(data):
    """The tokens as (kind, text, byte), with one for the end; raises Refused."""
    if len(data) > 2 ** 20:
        raise Refused("more than 2^20 bytes", 2 ** 20)
    try:
        data.decode("utf-8")
    except UnicodeDecodeError as error:
        raise Refused("no UTF-8", error.start) from None
    text, tokens, at = data.decode("latin-1"), [], 0
    while at < len(text):
        match = TOKEN.match(text, at)
        if not match:
            raise Refused("no word begins so", at)
        if match.lastgroup != "blank":
            kind = "reserved" if match.group() in RESERVED else match.lastgroup
            tokens.append(("<%s>" % kind, match.group(), at))
        at = match.end()
    return tokens + [("<end>", "", at)]


def literal_of(text):
    """The three numbers of a literal's normal form, or None if it is past its limits."""
    letter = "p" if text[1:2] == "x" else "b" if "b" in text else "e"
    base, radix, places, most, least, last = FORMS[letter]
    digits, _, power = text[2 if letter == "p" else 0:].partition(letter)
    whole, _, rest = digits.partition(".")
    digits = whole if letter == "b" else (whole + rest).lstrip("0")
    power = int(power.lstrip("+-0")[:12] or 0) * (-1 if power[:1] == "-" else 1)
    power -= places * len(rest)
    if len(digits) > most or not least <= power <= last:
        return None
    number = int(digits or "0", radix)
    while number and number % base == 0:
        number, power = number // base, power + 1
    power = power if number else 0
    return (number, power, 0) if base == 2 else (number, 0, power)


def worth(literal):
    """The fraction that a literal's three numbers stand for."""
    return literal[0] * Fraction(2) ** literal[1] * Fraction(10) ** literal[2]


def parts_of(node):
    """The numbers of a node's parts."""
    return () if node[0] in ("var", "lit") else node[3 if node[0] == "rnd" else 1:]


def below(nodes, root, stop=()):
    """The root and the nodes below it, as a set; nothing below nodes of the kinds `stop`."""
    found, rest = set(), [root]
    while rest:
        n = rest.pop()
        if n not in found:
            found.add(n)
            rest += () if nodes[n][0] in stop else parts_of(nodes[n])
    return found


class Script:
    """What a text spells; raises Refused.

    Nodes, names of variables, for each case the facts of its hypotheses, goals as (slot, "?" or an
    interval rounded inward or None if that is empty, the line's beginning), and hints `->` as
    (left, right, divisors, constraints as (sign, node, bound)).
    """

    def __init__(self, data):
        self.tokens, self.at, self.rounding = tokens_of(data), 0, None
        self.nodes, self.number, self.hints, self.counts = [], {}, [], {}
        self.operators, self.values, self.names, self.halved = {}, {}, {}, set()
        while not self.see("{"):
            self.definition()
        self.formula()
        while not self.see(""):
            self.hint()

    def see(self, *texts):
        """Whether the coming token is one of these texts."""
        return self.tokens[self.at][1] in texts

    def refuse(self, why="a word without a place"):
        """Raises Refused at the coming token."""
        raise Refused(why, self.tokens[self.at][2])

    def take(self, *wanted):
        """The coming token's text; the text or the kind has to be one of these."""
        kind, text, _ = self.tokens[self.at]
        if kind not in wanted and text not in wanted:
            self.refuse()
        self.at += 1
        return text

    def skip(self, *wanted):
        """The coming token's text if it is one of these, which is taken then; else an empty one."""
        return self.take(*wanted) if self.see(*wanted) else ""

    def count(self, what, by=1):
        """Counts what has a limit."""
        self.counts[what] = self.counts.get(what, 0) + by
        if self.counts[what] > LIMITS[what]:
            self.refuse("more than %d %s" % (LIMITS[what], what))

    def whole(self, least=-512, most=512):
        """A whole number in decimal digits alone, perhaps with a minus before it."""
        minus = least < 0 and self.skip("-")
        digits = self.take(LITERAL).lstrip("0") or "0"
        number = int(digits[:9]) * (-1 if minus else 1) if digits.isdigit() else most + 1
        return number if least <= number <= most else self.refuse("a number past its limits")

    def literal(self):
        """A literal's three numbers."""
        return literal_of(self.take(LITERAL)) or self.refuse("a literal past its limits")

    def bound(self):
        """A bound's value, as a fraction."""
        sign = -1 if self.skip("+", "-") == "-" else 1
        return sign * worth(self.literal())

    def operator(self, *ends):
        """An operator's direction and lsb, up to one of these ends."""
        lsb, is_fixed = 0, self.take("fixed", "int") == "fixed"
        self.take("<")
        if is_fixed:
            lsb = self.whole()
            self.take(",")
        direction = self.take(*DIRECTIONS)
        self.take(*ends)
        return direction, lsb

    def definition(self):
        """`@name = operator;`, `name = expr;` or `name opname= expr;`."""
        self.count("definitions")
        table = self.operators if self.skip("@") else self.values
        name = self.take(NAME)
        if table is self.values and self.see("fixed", "int"):
            self.rounding = self.operator(">", ">=")
        elif table is self.values and self.see(*self.operators):
            self.rounding = self.operators[self.take(NAME)]
        if self.tokens[self.at - 1][1] != ">=":
            self.take("=")
        found = self.expr() if table is self.values else self.operator(">")
        self.rounding = None
        self.take(";")
        if name in self.operators or name in self.values or name in self.names:
            self.refuse("%s is defined or used before" % name)
        table[name] = found

    def add(self, *node):
        """The number of a node that is written; one that stands already keeps its own."""
        self.count("nodes")
        if node not in self.number:
            self.number[node] = len(self.nodes)
            self.nodes.append(node)
        return self.number[node]

    def operation(self, *node):
        """A written operation, rounded if the definition has an operator."""
        n = self.add(*node)
        return self.add("rnd", *self.rounding, n) if self.rounding else n

    def nested(self, first, read, *ends):
        """What `read` reads after the token `first`, once before each of the ends."""
        self.count("open signs")
        self.take(first)
        found = []
        for end in ends:
            found.append(read())
            if end:
                self.take(end)
        self.counts["open signs"] -= 1
        return found

    def grouped(self, signs, read):
        """Operands between these signs, grouped to the left."""
        left, sign = read(), self.skip(*signs)
        while sign:
            left, sign = self.operation(signs[sign], left, read()), self.skip(*signs)
        return left

    def expr(self):
        """An expression's node."""
        return self.grouped(SUMS, lambda: self.grouped(PRODUCTS, self.factor))

    def factor(self):
        """A factor's node."""
        kind, text, _ = self.tokens[self.at]
        if kind == LITERAL:
            return self.add("lit", *self.literal())
        if text == "-":
            return self.add("neg", *self.nested("-", self.factor, ""))
        if text == "(":
            return self.nested("(", self.expr, ")")[0]
        if text == "|":
            return self.add("abs", *self.nested("|", self.expr, "|"))
        if self.skip("fma"):
            a, b, c = self.nested("(", self.expr, ",", ",", ")")
            return self.operation("add", self.add("mul", a, b), c)
        if text in ("fixed", "int") or text in self.operators:
            op = self.operators[self.take(NAME)] if kind == NAME else self.operator(">")
            return self.add("rnd", *op, *self.nested("(", self.expr, ")"))
        name = self.take(NAME)
        if self.see("("):
            self.refuse("%s isn't an operator" % name)
        if name not in self.values and name not in self.names:
            self.names[name] = self.add("var", len(self.names))
        return self.values[name] if name in self.values else self.names[name]

    def formula(self):
        """Parts, up to the closing brace: hypotheses, and goals as the last."""
        self.take("{")
        parts, sign = [], "->"
        while sign != "}":
            if sign == "->":
                parts.append([])
            if sign != "/\\":
                parts[-1].append([])
            parts[-1][-1].append(self.claim())
            sign = self.take("/\\", "\\/", "->", "}")
        self.cases = [[]]
        for part in parts[:-1]:  # the first part is the slowest
            self.counts["cases"] = 0
            self.count("cases", len(self.cases) * len(part))
            claims = [[self.hypothesis(*claim) for claim in conj] for conj in part]
            self.cases = [case + conj for case in self.cases for conj in claims]
        self.goals = [self.goal(*claim) for claim in parts[-1][0]]
        if len(parts[-1]) > 1:
            self.refuse("a disjunction of goals")

    def claim(self):
        """A claim: whether it has `not`, its kind, its slot, its bounds, the line's beginning."""
        negated, first, low, high = bool(self.skip("not")), self.at, None, None
        self.count("propositions")
        if self.skip("@"):
            self.take("FIX")
            slot = ("FIX", *self.nested("(", self.expr, ","))
            low, _ = self.whole(), self.take(")")
            return negated, "@FIX", slot, low, high, ""
        slot = ("BND", self.expr())
        if self.skip("-/"):
            slot = ("REL", slot[1], self.expr())
        text = " ".join(token[1] for token in self.tokens[first:self.at])
        kind = self.take("in") if slot[0] == "REL" else self.take("in", "<=", ">=")
        if kind != "in":
            low, high = (self.bound(), None) if kind == ">=" else (None, self.bound())
        elif self.skip("?"):
            kind = "?"
        else:
            self.take("[")
            low, _, high, _ = self.bound(), self.take(","), self.bound(), self.take("]")
            if high < low or slot[0] == "REL" and outward(low, low)[0] <= -UNIT:
                self.refuse("a bad bound")
        return negated, kind, slot, low, high, text

    def hypothesis(self, negated, kind, slot, low, high, _):
        """The fact of a claim, its bounds rounded outward."""
        if kind == "?" or negated and kind not in ("<=", ">="):
            self.refuse("a hypothesis of another form")
        low, high = (high, low) if negated else (low, high)
        return slot, low if kind == "@FIX" else outward(low, high)

    def goal(self, negated, kind, slot, low, high, text):
        """A goal's slot, what it wants, and the line's beginning."""
        if kind == "@FIX" or negated:
            self.refuse("a goal of another form")
        least = -INF if low is None else outward(low, low)[1]
        most = INF if high is None else outward(high, high)[0]
        crossed = least > most or least == INF or most == -INF
        return slot, "?" if kind == "?" else None if crossed else (least, most), text

    def hint(self):
        """`a -> b {..};`, `a ~ b;`, `$ x ..;` or `e, .. $ x, ..;`."""
        self.count("hints")
        if self.skip("$"):
            self.cut()
            self.take(";")
            return
        left, sign = self.expr(), self.take("->", "~", ",", "$")
        while sign == ",":
            self.expr()
            sign = self.take(",", "$")
        if sign == "->":
            self.rewriting(left)
        elif sign == "~":
            self.expr()
        while sign in ("$", ","):
            self.ranges(True)
            sign = self.skip(",")
        self.take(";")

    def rewriting(self, left):
        """What follows the arrow of a hint."""
        right, needs = self.expr(), []
        while self.skip("," if needs else "{"):
            n, sign = self.expr(), self.take("<>", "<", "<=", ">", ">=")
            needs.append((sign, n, self.take("0") if sign == "<>" else self.bound()))
        if needs:
            self.take("}")
        divisors = {self.nodes[n][2] for n in below(self.nodes, left) if self.nodes[n][0] == "div"}
        self.hints.append((left, right, sorted(divisors), needs))

    def ranges(self, halved=False):
        """A split variable's range in each case."""
        name = self.take(NAME)
        if halved and name not in self.halved:
            self.halved.add(name)
            self.count("halved variables")
        found, slot = [], ("BND", self.names.get(name))
        for case in self.cases:
            found += [i for s, i in case if s == slot and finite(i)][:1] or self.refuse("no range")
        return found

    def cut(self):
        """`$ x`, `$ x in n` or `$ x in (p, ..)`, behind the `$`."""
        self.count("cuts")
        ranges, points = self.ranges(), []
        if not self.skip("in"):
            return
        if not self.skip("("):
            self.whole(1, 64)
            return
        while not points or self.skip(","):
            bound = self.bound()
            points.append(outward(bound, bound)[0])
            if len(points) > 63 or points[-1:] <= points[-2:-1] or not any(
                    low < points[-1] < high for low, high in ranges):
                self.refuse("a point out of place")
        self.take(")")
