"""Scripts, read by the grammar of docs/FORMATS.md. Numbers stand in exact.py, values in
script_evaluation.py; all three run nothing.

The reader stops at the first token that has no place, as the program does. What else the program
refuses it may read.
"""

import re
import sys
from collections import namedtuple

from exact import (  # noqa: F401
    ROUND_CEILING,
    ROUND_FLOOR,
    ROUND_HALF_EVEN,
    Context,
    Decimal,
    Fault,
    decimal,
    decimals,
    literal_of,
    literal_value,
    near,
    rounded,
    value_of,
)

from script_evaluation import Evaluated, children  # noqa: F401

sys.setrecursionlimit(20000)


# ---- scripts

BLANK = re.compile(r"(?:[ \t\r\n]+|#[^\n]*)*")
TOKEN = re.compile(
    r"(?P<literal>0x[0-9a-fA-F]+(?:\.[0-9a-fA-F]+)?(?:p[+-]?[0-9]+)?|[0-9]+b[+-]?[0-9]+"
    r"|[0-9]+(?:\.[0-9]+)?(?:e[+-]?[0-9]+)?)|(?P<name>[A-Za-z_][A-Za-z0-9_]*)"
    r"|(?P<sign><=|>=|<>|->|-/|/\\|\\/|[{}()\[\],;=+\-*/|<>?$~@])"
)
FOLLOWED = re.compile(r"[A-Za-z0-9_]")
RESERVED = ("in", "not", "fixed", "int", "fma", "float", "sqrt")
DIRECTIONS = ("zr", "aw", "dn", "up", "od", "ne", "no", "nz", "na", "nd", "nu")
Token = namedtuple("Token", "kind text start end")
# a proposition: its kind is in, rel, le, ge or fix; `says` is its expression as it is written
Claim = namedtuple("Claim", "kind negated left right lower upper ask says text")
# a hint: its kind is rewrite, like, cut or halve
Hint = namedtuple("Hint", "kind left right needs names text")


def tokens_up_to(text):
    """A text's tokens up to its end, or up to the first place where none begins: the last has the
    kind `end` or `bad`."""
    found, at = [], 0
    while True:
        at = BLANK.match(text, at).end()
        match = TOKEN.match(text, at)
        if at == len(text):
            return found + [Token("end", "", at, at)]
        if not match or match.lastgroup == "literal" and FOLLOWED.match(text, match.end()):
            return found + [Token("bad", "", at, at)]
        found.append(Token(match.lastgroup, match.group(), at, match.end()))
        at = match.end()


def tokens_of(text):
    """A text's tokens; a Fault names the byte at which none begins."""
    found = tokens_up_to(text)
    if found[-1].kind == "bad":
        raise misplaced(found[-1])
    return found


def misplaced(token):
    """The Fault of a token that no script has at its place."""
    return Fault("no script has what stands at byte %d" % token.start)


class Script(Evaluated):
    """What a text spells. Nodes are ("var", name), ("lit", value), ("neg", a), ("abs", a), ("add",
    a, b), ("sub", a, b), ("mul", a, b), ("div", a, b) or ("rnd", direction, power, a), children
    before their parents, none twice."""

    def __init__(self, text):
        self.text = text
        self.nodes, self.index = [], {}
        self.variables, self.defined, self.operators = {}, {}, {}
        self.spelled = {}  # literal's node: its spelling
        self.placed = {}  # rounding's node: the byte where it is first written
        self.op = None  # what each operation is rounded by
        self.tokens, self.at = tokens_up_to(text), 0
        while not self.see("{"):
            self.definition()
        self.head = text[: self.take("{").start]
        self.parts = [self.part()]
        while self.see("->"):
            self.take("->")
            self.parts.append(self.part())
        self.goals = [claim for conjunction in self.parts.pop() for claim in conjunction]
        self.take("}")
        self.hints = []
        while self.peek().kind != "end":
            self.hints.append(self.hint())

    # -- tokens

    def peek(self):
        return self.tokens[self.at]

    def see(self, *signs):
        return self.peek().kind == "sign" and self.peek().text in signs

    def word(self, *words):
        return self.peek().kind == "name" and self.peek().text in words

    def args(self, count):
        """So many expressions in parentheses."""
        self.take("(")
        found = [self.expr()]
        while len(found) < count:
            self.take(",")
            found.append(self.expr())
        self.take(")")
        return found

    def take(self, sign=None):
        token = self.peek()
        if sign is not None and token.text != sign or token.kind in ("end", "bad"):
            raise misplaced(token)
        self.at += 1
        return token

    def kind(self, kind, *words):
        """Takes a token of a kind, one of these words if some are given."""
        token = self.peek()
        if token.kind != kind or words and token.text not in words:
            raise misplaced(token)
        return self.take()

    def name(self):
        """Takes a name that isn't reserved."""
        if self.word(*RESERVED):
            raise misplaced(self.peek())
        return self.kind("name").text

    def digits(self):
        """Takes a literal of decimal digits alone, and gives its value."""
        if not self.peek().text.isdigit():
            raise misplaced(self.peek())
        return int(self.kind("literal").text)

    def span(self, first):
        """The text from token number `first` up to the one that is next."""
        return self.text[self.tokens[first].start : self.tokens[self.at - 1].end]

    # -- expressions

    def node(self, node):
        if node not in self.index:
            self.index[node] = len(self.nodes)
            self.nodes.append(node)
        return self.index[node]

    def operation(self, kind, a, b, at):
        """An operation that is written at byte `at`, rounded where the definition says so."""
        made = self.node((kind, a, b))
        return made if self.op is None else self.rounding(self.op, made, at)

    def rounding(self, operator, inner, at):
        """A rounding that is written at byte `at`."""
        made = self.node(("rnd",) + operator + (inner,))
        self.placed.setdefault(made, at)
        return made

    def whole(self):
        sign = -1 if self.see("-") and self.take() else 1
        return sign * self.digits()

    def operator(self):
        """An operator up to its direction: the direction and the power of two."""
        power = 0
        if self.kind("name", "fixed", "int").text == "fixed":
            self.take("<")
            power = self.whole()
            self.take(",")
        else:
            self.take("<")
        return self.kind("name", *DIRECTIONS).text, power

    def expr(self):
        left = self.term()
        while self.see("+", "-"):
            sign = self.take()
            left = self.operation(
                "add" if sign.text == "+" else "sub", left, self.term(), sign.start
            )
        return left

    def term(self):
        left = self.factor()
        while self.see("*", "/"):
            sign = self.take()
            left = self.operation(
                "mul" if sign.text == "*" else "div", left, self.factor(), sign.start
            )
        return left

    def factor(self):
        if self.see("-"):
            self.take()
            return self.node(("neg", self.factor()))
        token = self.take()
        if token.kind == "literal":
            made = self.node(("lit", literal_value(token.text)))
            self.spelled.setdefault(made, token.text)
            return made
        if token.text in ("(", "|"):
            inner = self.expr()
            self.take(")" if token.text == "(" else "|")
            return inner if token.text == "(" else self.node(("abs", inner))
        if token.text == "fma":
            a, b, c = self.args(3)
            return self.operation("add", self.node(("mul", a, b)), c, token.start)
        if token.text in ("fixed", "int") or token.text in self.operators:
            operator = self.operators.get(token.text)
            if operator is None:
                self.at -= 1
                operator = self.operator()
                self.take(">")
            return self.rounding(operator, self.args(1)[0], token.start)
        if token.kind != "name" or token.text in RESERVED or self.see("("):
            raise misplaced(token)
        if token.text in self.defined:
            return self.defined[token.text]
        return self.variables.setdefault(token.text, self.node(("var", token.text)))

    # -- definitions, claims, hints

    def definition(self):
        if self.see("@"):
            self.take("@")
            name = self.name()
            self.take("=")
            self.operators[name] = self.operator()
            self.take(">")
            self.take(";")
            return
        name = self.name()
        if self.word("fixed", "int"):
            self.op = self.operator()
            if self.see(">="):
                self.take()
            else:
                self.take(">")
                self.take("=")
        else:
            if self.peek().kind == "name":
                self.op = (
                    self.operators[self.kind("name", *self.operators).text]
                    if self.operators
                    else self.kind("name", "fixed", "int")
                )
            self.take("=")
        made = self.expr()
        self.op = None
        self.take(";")
        self.defined[name] = made

    def bound(self):
        sign = -1 if self.see("+", "-") and self.take().text == "-" else 1
        return sign * literal_value(self.kind("literal").text)

    def part(self):
        found = [[self.claim()]]
        while self.see("/\\", "\\/"):
            if self.take().text == "\\/":
                found.append([])
            found[-1].append(self.claim())
        return found

    def claim(self):
        first = self.at
        negated = self.word("not") and bool(self.take())
        if self.see("@"):
            self.take("@")
            self.kind("name", "FIX")
            self.take("(")
            left = self.expr()
            self.take(",")
            power = self.whole()
            self.take(")")
            return Claim(
                "fix", False, left, None, power, None, False, self.span(first), self.span(first)
            )
        begin = self.at
        left, right, lower, upper, ask = self.expr(), None, None, None, False
        if self.see("<=", ">="):
            says, kind = self.span(begin), "le" if self.take().text == "<=" else "ge"
            if kind == "le":
                upper = self.bound()
            else:
                lower = self.bound()
            return Claim(kind, negated, left, None, lower, upper, False, says, self.span(first))
        kind = "in"
        if self.see("-/"):
            self.take()
            kind, right = "rel", self.expr()
        says = self.span(begin)
        self.kind("name", "in")
        if self.see("?"):
            self.take()
            ask = True
        else:
            self.take("[")
            lower = self.bound()
            self.take(",")
            upper = self.bound()
            self.take("]")
        return Claim(kind, negated, left, right, lower, upper, ask, says, self.span(first))

    def hint(self):
        first, left, right, needs, names, kind = self.at, None, None, [], [], "cut"
        if self.see("$"):
            self.take()
            names.append(self.name())
            if self.word("in"):
                self.take()
                self.cut()
        else:
            left = self.expr()
            if self.see("->", "~"):
                kind = "rewrite" if self.take().text == "->" else "like"
                right = self.expr()
                if kind == "rewrite" and self.see("{"):
                    needs = self.needs()
            else:
                kind = "halve"
                while self.see(","):
                    self.take()
                    self.expr()
                self.take("$")
                names = [self.name()]
                while self.see(","):
                    self.take()
                    names.append(self.name())
        self.take(";")
        return Hint(kind, left, right, needs, names, self.span(first))

    def cut(self):
        """The pieces of a cut, or its points."""
        if not self.see("("):
            return [self.digits()]
        self.take("(")
        found = [self.bound()]
        while self.see(","):
            self.take()
            found.append(self.bound())
        self.take(")")
        return found

    def needs(self):
        found = []
        while not found or self.see(","):
            self.take("{" if not found else ",")
            node = self.expr()
            sign = self.kind("sign", "<>", "<", "<=", ">", ">=").text
            if sign == "<>" and self.peek().text != "0":
                raise misplaced(self.peek())
            found.append((node, sign, self.bound()))
        self.take("}")
        return found

    # -- what tools ask

    def case(self, number):
        """The hypothesis parts of one case, as texts, counted from 1, the first part slowest."""
        number, found = number - 1, []
        for part in reversed(self.parts):
            number, place = divmod(number, len(part))
            found.insert(0, [[claim.text for claim in part[place]]])
        return found

    def cases(self):
        count = 1
        for part in self.parts:
            count *= len(part)
        return count

    def written(self, parts=None, goals=None, hints=None):
        """The script with other hypothesis parts, goals or hints (texts); those that are None
        stay."""
        parts = (
            [[[c.text for c in some] for some in part] for part in self.parts]
            if parts is None
            else parts
        )
        shown = [
            " \\/ ".join(" /\\ ".join(some or ["0 in [0,0]"]) for some in part)
            for part in parts
            if part != [[]]
        ]
        shown.append(" /\\ ".join([c.text for c in self.goals] if goals is None else goals))
        lines = [h.text for h in self.hints] if hints is None else hints
        return (
            self.head
            + "{ "
            + "\n  -> ".join(shown)
            + " }\n"
            + "".join(line + "\n" for line in lines)
        )

    def hypotheses(self):
        """(part, conjunction, place) of each hypothesis, and the hypothesis."""
        for p, part in enumerate(self.parts):
            for c, conjunction in enumerate(part):
                for k, claim in enumerate(conjunction):
                    yield (p, c, k), claim

    def names(self):
        """The name of each node that has one; where several have, the last."""
        found = {node: name for name, node in self.defined.items() if self.nodes[node][0] != "lit"}
        found.update((node, name) for name, node in self.variables.items())
        return found
