"""Gappa's expressions and definitions: tokens with their places, numbers, operators.

`Expressions(text)` reads the definitions of a script of Gappa 1.4.1; `gappa_script.Gappa` the
rest. What no script of Gappa has raises `Unread` with its byte.

Expressions are interned: a node is a number, an index of `nodes`, and equal expressions have equal
numbers, whatever names they have. `nodes` has the same tuples as `script_text.Script`, and besides
`("sqrt", a)` and `("call", function, a, ..)` for operators that only Gappa has.

`edits` maps the text to one that `fixprove` reads as the same expressions: each is (start, end,
replacement); places are bytes, counted from 0. Values stay the same. `notes` has a Word for each
edit that changes an operation, and `unserved` one for each construct that `fixprove` hasn't.
"""

import re
from collections import namedtuple
from fractions import Fraction

TOKEN = re.compile(
    r"(?:[ \t\r\n]+|#[^\n]*)*"
    r"(?:(?P<number>0x(?:[0-9a-fA-F]+(?:\.[0-9a-fA-F]*)?|\.[0-9a-fA-F]+)(?:[pP][-+]?[0-9]+)?"
    r"|[0-9]+[bB][-+]?[0-9]+|(?:[0-9]+(?:\.[0-9]*)?|\.[0-9]+)(?:[eE][-+]?[0-9]+)?)"
    r"|(?P<name>[A-Za-z_][A-Za-z0-9_]*)"
    r"|(?P<sign><=|>=|<>|->|-/|/\\|\\/|[{}()\[\],;=+\-*/|<>?$~@])|(?P<end>$))")
Token = namedtuple("Token", "kind text start end")
DIRECTIONS = ("zr", "aw", "dn", "up", "od", "ne", "no", "nz", "na", "nd", "nu")
OPERATORS = ("fixed", "int", "float", "add_rel", "sub_rel", "mul_rel", "homogen_rnd",
             "homogen_init")
# an operator: kind is "rnd" with `value` (direction, power), or "call" with its text
Operator = namedtuple("Operator", "kind value")
# what is told of a construct: its byte, what it is, and what cures it
Word = namedtuple("Word", "at what cure")

FLOAT = ("a known binade has a fixed step: in [1,2) a double is fixed<-52,ne>. "
         "Else name the result r and assume r -/ (x + y) in [-1b-53,1b-53]")
ROOT = ("take the root as a variable s, its argument as s * s, "
        "and a computed root t by t -/ s in [..]")


class Unread(Exception):
    """What no script of Gappa has: the byte, and a sentence."""

    def __init__(self, at, what):
        Exception.__init__(self, what)
        self.at, self.what = at, what


def place(text, at):
    """Line and column of a byte, both from 1."""
    return text.count("\n", 0, at) + 1, at - (text.rfind("\n", 0, at) + 1) + 1


def tokens_of(text):
    """All tokens of a text, the last one of kind `end`; raises Unread."""
    found, at = [], 0
    while True:
        match = TOKEN.match(text, at)
        if not match:
            blank = re.compile(r"(?:[ \t\r\n]+|#[^\n]*)*").match(text, at).end()
            raise Unread(blank, "no token of Gappa begins here")
        kind = match.lastgroup
        found.append(Token(kind, match.group(kind), match.start(kind), match.end(kind)))
        at = match.end()
        if kind == "end":
            return found


def number_value(text):
    """What a number of Gappa stands for, as a fraction; raises ValueError past 5,000 digits."""
    low, base, mark, digit = text.lower(), 10, "e", 10
    if low.startswith("0x"):
        low, base, mark, digit = low[2:], 2, "p", 16
    elif "b" in low:
        base, mark = 2, "b"
    body, _, exponent = low.partition(mark)
    front, _, back = body.partition(".")
    power = int(exponent or 0)
    if abs(power) > 5000 or len(body) > 5000:
        raise ValueError("a number is too long")
    scale = Fraction(digit) ** len(back) if digit == 16 or base == 10 else Fraction(1)
    return int((front + back) or "0", digit) * Fraction(base) ** power / scale


def dyadic(value):
    """A fraction m * 2^e as (m, e) with odd m, (0, 0) for 0; None for another."""
    if value == 0:
        return 0, 0
    low = value.denominator
    if low & (low - 1):
        return None
    mantissa, power = value.numerator, 1 - low.bit_length()
    while mantissa % 2 == 0:
        mantissa, power = mantissa // 2, power + 1
    return mantissa, power


def served_number(text):
    """A spelling that `fixprove` reads for the same value; None where it has none."""
    value = number_value(text)
    low = text.lower()
    body, mark, exponent = re.match(r"(0x)?([0-9a-f.]*?)(?:([bep])([-+]?[0-9]+))?$", low
                                    if low.startswith("0x") else low).group(2, 3, 4)
    if low.startswith("0x"):
        front, _, back = body.partition(".")
        made = "0x" + (front or "0") + ("." + back if back else "")
        digits, power = (front + back).lstrip("0"), int(exponent or 0) - 4 * len(back)
        fits = len(digits) <= 25 and abs(power) <= 512
    else:
        front, _, back = body.partition(".")
        made = (front or "0") + ("." + back if back else "")
        digits, power = front + back, int(exponent or 0) - len(back)
        fits = len(digits) <= 30 and abs(power) <= 512
        if mark != "b":
            fits = len(digits.lstrip("0")) <= 30 and -30 <= power <= 8
    if fits:
        return made + (mark + exponent if mark else "")
    found = dyadic(value)
    if found is None or len(str(found[0])) > 30 or abs(found[1]) > 512:
        return None
    return "%db%d" % found


class Expressions:
    """The definitions of a script, and the reading of expressions; raises Unread."""

    def __init__(self, text):
        self.text, self.tokens, self.at, self.deep = text, tokens_of(text), 0, 0
        self.nodes, self.index = [], {}
        self.defined, self.operators, self.variables = {}, {}, {}
        self.edits, self.notes, self.unserved = [], [], []
        self.rounding = None     # by what the operations of a definition are rounded
        self.factors = 1         # how many the last term has
        self.otherwise = False   # whether `fixprove` reads some value of the text otherwise
        while not self.see("{"):
            self.definition()

    # ---- tokens

    def peek(self, ahead=0):
        """The next token, or one further on."""
        return self.tokens[min(self.at + ahead, len(self.tokens) - 1)]

    def see(self, *signs):
        """Whether one of these signs is next."""
        return self.peek().kind == "sign" and self.peek().text in signs

    def word(self, *words):
        """Whether one of these names is next."""
        return self.peek().kind == "name" and self.peek().text in words

    def take(self, text=None, kind=None):
        """The next token, which is to be this one; raises Unread."""
        token = self.peek()
        if text is not None and token.text != text or kind is not None and token.kind != kind:
            raise self.unexpected("expected %s" % (text or "a " + kind))
        if token.kind == "end":
            raise self.unexpected("expected more")
        self.at += 1
        return token

    def unexpected(self, wanted):
        """The fault of the next token."""
        token = self.peek()
        shown = "the script ends" if token.kind == "end" else "unexpected %s" % token.text
        return Unread(token.start, "%s, %s" % (shown, wanted))

    def span(self, first):
        """The bytes from token number `first` up to the next one."""
        return self.tokens[first].start, self.tokens[self.at - 1].end

    def edit(self, start, end, text):
        """Puts another text in the place of these bytes."""
        self.edits.append((start, end, text))

    def edited(self, start, end):
        """The text of these bytes with the edits that lie inside them."""
        out, at = [], start
        for low, high, new in sorted(self.edits, key=lambda it: it[:2]):
            if start <= low and high <= end:
                out += [self.text[at:low], new]
                at = high
        return "".join(out) + self.text[at:end]

    # ---- numbers

    def number(self):
        """The value of a number, with an edit where `fixprove` spells it otherwise."""
        token = self.take(kind="number")
        try:
            value, served = number_value(token.text), served_number(token.text)
        except ValueError as error:
            raise Unread(token.start, str(error))
        if served is None:
            self.unserved.append(Word(token.start, "the number %s" % token.text[:40],
                                      "write it with at most 30 digits and an exponent of ten from "
                                      "-30 to 8, rounded to the safe side, or as m * 2^e: mbe"))
        elif served != token.text:
            self.edit(token.start, token.end, served)
        return value

    def signed(self):
        """The value of a number with a sign or without."""
        sign = -1 if self.see("+", "-") and self.take().text == "-" else 1
        return sign * self.number()

    def whole(self, limit=512):
        """A whole number with a sign or without; one past the limit is told."""
        first = self.at
        plus = self.see("+")
        sign = -1 if self.see("+", "-") and self.take().text == "-" else 1
        token = self.take(kind="number")
        if not token.text.isdigit():
            raise Unread(token.start, "expected a whole number")
        if plus:
            self.edit(self.tokens[first].start, self.tokens[first].end, "")
        value = sign * int(token.text)
        if abs(value) > limit:
            self.unserved.append(Word(token.start, "the power 2^%s" % token.text[:12],
                                      "powers of two go from -512 to 512: scale the values"))
        return value

    # ---- expressions

    def node(self, node):
        """The number of a node."""
        if node not in self.index:
            self.index[node] = len(self.nodes)
            self.nodes.append(node)
        return self.index[node]

    def operation(self, kind, a, b):
        """An operation, rounded where the definition says so."""
        return self.by(self.rounding, self.node((kind, a, b)))

    def by(self, operator, *args):
        """An operator's value of some expressions."""
        if operator is None:
            return args[0]
        if operator.kind == "rnd":
            return self.node(("rnd",) + operator.value + args)
        return self.node(("call", operator.value) + args)

    def operator(self):
        """An operator by its name and parameters; one that isn't served is told where it stands."""
        first = self.at
        name = self.take(kind="name")
        params = []
        if self.see("<"):
            self.take()
            while True:
                if self.peek().kind == "name":
                    params.append(self.take().text)
                else:
                    params.append(self.whole(4096))
                if not self.see(","):
                    break
                self.take(",")
            self.take(">")
        if name.text in self.operators:
            return self.operators[name.text]
        if name.text not in OPERATORS:
            raise Unread(name.start, "%s is no operator" % name.text)
        if name.text == "fixed" and len(params) == 2 and isinstance(params[0], int) \
                and params[1] in DIRECTIONS:
            if abs(params[0]) > 512:
                self.unserved.append(Word(name.start, "a step of 2^%d" % params[0],
                                          "powers of two go from -512 to 512: scale the values"))
            return Operator("rnd", (params[1], params[0]))
        if name.text == "int" and len(params) == 1 and params[0] in DIRECTIONS:
            return Operator("rnd", (params[0], 0))
        if name.text in ("fixed", "int"):
            raise Unread(name.start, "no parameters of %s" % name.text)
        start, end = self.span(first)
        shown = re.sub(r"\s+", "", self.text[start:end])
        cure = FLOAT if name.text == "float" else (
            "assume its relative error: r -/ (x + y) in [-1b-20,1b-20], with r a variable"
            if name.text.endswith("_rel") else "name its value, and assume a bound of its error")
        self.unserved.append(Word(name.start, "the operator %s" % shown, cure))
        return Operator("call", shown)

    def expr(self):
        """The node of an expression."""
        left = self.term()
        while self.see("+", "-"):
            kind = "add" if self.take().text == "+" else "sub"
            left = self.operation(kind, left, self.term())
        return left

    def term(self):
        """Products and quotients. A minus takes all that follows it in the term."""
        left, factors = self.factor(), 1
        while self.see("*", "/"):
            sign, factors = self.take(), factors + 1
            shifted = self.shift(sign) if sign.text == "/" else None
            if shifted is not None:
                left = self.operation("mul", left, shifted)
            else:
                kind = "mul" if sign.text == "*" else "div"
                left = self.operation(kind, left, self.factor())
        self.factors = factors
        return left

    def shift(self, sign):
        """The factor that stands for a division by a power of two; None for another division."""
        token = self.peek()
        try:
            found = dyadic(number_value(token.text)) if token.kind == "number" else None
        except ValueError:
            return None
        if found is None or found[0] != 1 or abs(found[1]) > 512:
            return None
        self.take()
        factor = "1b%d" % -found[1]
        self.edit(sign.start, token.end, "* " + factor)
        self.notes.append(Word(sign.start, "/ %s is written as * %s" % (token.text, factor),
                               "the same value; as a product it is known to be a multiple"))
        return self.node(("lit", Fraction(2) ** -found[1]))

    def factor(self):
        """A factor; after a minus the whole term, as Gappa reads -a * b as -(a * b)."""
        self.deep += 1
        if self.deep > 200:
            raise Unread(self.peek().start, "nested more than 200 deep")
        made = self.one_factor()
        self.deep -= 1
        return made

    def one_factor(self):
        """A factor, its depth counted."""
        if self.see("+"):
            sign = self.take()
            self.edit(sign.start, sign.end, "")
            return self.factor()
        if self.see("-"):
            self.take()
            if self.peek().kind == "number":
                return self.node(("lit", -self.number()))
            return self.node(("neg", self.negated()))
        token = self.peek()
        if token.kind == "number":
            return self.node(("lit", self.number()))
        if self.see("(", "|"):
            self.take()
            inner = self.expr()
            self.take(")" if token.text == "(" else "|")
            return inner if token.text == "(" else self.node(("abs", inner))
        if token.kind != "name" or token.text in ("in", "not"):
            raise self.unexpected("expected an expression")
        if token.text == "sqrt":
            self.take()
            self.unserved.append(Word(token.start, "sqrt", ROOT))
            return self.by(self.rounding, self.node(("sqrt",) + tuple(self.args())))
        if token.text == "fma":
            self.take()
            args = self.args()
            if len(args) != 3:
                raise Unread(token.start, "fma takes three expressions")
            product = self.node(("mul", args[0], args[1]))
            return self.operation("add", product, args[2])
        if token.text in self.operators or token.text in OPERATORS:
            operator = self.operator()
            args = self.args()
            if operator.kind == "rnd" and len(args) != 1:
                raise Unread(token.start, "%s takes one expression" % token.text)
            return self.by(operator, *args)
        if self.peek(1).text == "(":
            raise Unread(token.start, "%s is no operator" % token.text)
        self.take()
        if token.text in self.defined:
            return self.defined[token.text]
        if token.text not in self.variables:
            self.variables[token.text] = self.node(("var", token.text))
        return self.variables[token.text]

    def negated(self):
        """What a minus takes: the rest of the term. Parentheses keep that for `fixprove`."""
        start = self.peek().start
        inner = self.term()
        if self.factors > 1:
            self.otherwise = self.otherwise or self.rounding is not None
            end = self.tokens[self.at - 1].end
            self.edit(start, start, "(")
            self.edit(end, end, ")")
        return inner

    def args(self):
        """The expressions in parentheses."""
        self.take("(")
        found = [self.expr()]
        while self.see(","):
            self.take()
            found.append(self.expr())
        self.take(")")
        return found

    # ---- definitions

    def definition(self):
        """A definition of an operator or of a value."""
        if self.see("@"):
            self.take()
            name = self.take(kind="name")
            self.new(name)
            self.take("=")
            made = self.operator()
            self.operators[name.text] = made
            self.take(";")
            return
        name = self.take(kind="name")
        self.new(name)
        self.rounding = None
        if not self.see("="):
            if self.peek().kind != "name":
                raise self.unexpected("expected = or an operator")
            self.rounding = self.definition_operator()
        self.take("=")
        made = self.expr()
        self.rounding = None
        self.take(";")
        if name.text in self.variables:
            raise Unread(name.start, "%s is used in its own definition" % name.text)
        self.defined[name.text] = made

    def definition_operator(self):
        """The operator before the = of a definition, where `>=` is two tokens."""
        for k in range(self.at, len(self.tokens)):
            token = self.tokens[k]
            if token.text in (";", "="):
                break
            if token.text == ">=":
                self.tokens[k:k + 1] = [Token("sign", ">", token.start, token.start + 1),
                                        Token("sign", "=", token.start + 1, token.end)]
                break
        return self.operator()

    def new(self, name):
        """Refuses a name that is taken."""
        taken = name.text in self.defined or name.text in self.operators \
            or name.text in self.variables or name.text in OPERATORS + ("fma", "sqrt", "in", "not")
        if taken:
            raise Unread(name.start, "%s is used already" % name.text)

    # ---- what others ask

    def below(self, root):
        """The names of the variables under a node, in the order of their first use."""
        seen, todo = set(), [root]
        while todo:
            at = todo.pop()
            if at not in seen:
                seen.add(at)
                todo.extend(self.children(at))
        return [name for name in self.variables if self.variables[name] in seen]

    def children(self, at):
        """The nodes of which a node is made."""
        node = self.nodes[at]
        skip = {"var": None, "lit": None, "rnd": 3, "call": 2}.get(node[0], 1)
        return () if skip is None else node[skip:]
