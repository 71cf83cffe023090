"""Random texts that several comparisons use: scripts, valid and not, and damaged bytes.

`script` writes scripts as engineers do: roundings, hints, relative errors and cuts. `any_grammar`
uses the whole grammar, with texts at limits and damaged ones. `any_text` is one of both, and
`damaged` damages bytes of any kind.
"""

from fractions import Fraction

NAMES = ["x", "y", "z", "a", "b1", "My", "dn", "FIX", "ne", "q", "rnd", "_t", "float1", "inn"]
DIRECTIONS = ["zr", "aw", "dn", "up", "od", "ne", "no", "nz", "na", "nd", "nu"]
LITERALS = ["0", "1", "2", "0.5", "1b-1", "0x1.8p1", "2.5e1", "1e8", "3", "10", "00", "0x0",
            "7b512", "1e-30", "1.00", "0.1e-29", "0x1.8p-508"]
# Values next to one another, and to -1 with a minus.
NEAR = ["0.1", "0x0.1999999999999999999999999p0", "0x0.199999999999999999999999ap0", "1b-100",
        "1e-30", "1b-99",
        "0.3", "0.30000000000000000000000000001", "0.9999999999999999",
        "0.999999999999999999999999999999", "1.0000001",
        "999999999999999999999999999999b512", "1b512", "9" * 30 + "e8", "0.25", "1b-2", "0.75",
        "3b-2", "0.4999999999"]
PAST = ["1e9", "1e-31", "1b513", "1b-513", "0x1p513", "1" * 31, "0" * 31 + "b1", "0x" + "f" * 26,
        "0.1e-30",
        "1." + "0" * 31, "1e99999999999999999999999", "0x1.8p-509", "0e9"]
FINE = ["0" * 40 + "1", "1." + "0" * 29, "0x" + "0" * 9 + "f" * 25, "9" * 30, "1" * 30 + "b0",
        "1e08", "1b+0512"]
WORDS = NAMES + DIRECTIONS + LITERALS + PAST[:4] + [
    "in", "not", "fixed", "int", "fma", "float", "sqrt", "{", "}", "(", ")", "[", "]", ",", ";",
    "=", "+", "-", "*",
    "/", "|", "<", ">", "?", "$", "~", "@", "<=", ">=", "<>", "->", "-/", "/\\", "\\/"]
BAD = ["!", "1.", "1e", "0x", "12x", "\\", ".", "&", "\u00e9", "1b", "3e+"]
NUMBERS = ["0", "1", "2", "3", "7", "10", "0.1", "0.5", "1.5", "3.14", "1e-9", "1b-4", "3b2",
           "0x1.8p1",
           "99999999999999999999", "1b512", "1b-512", "123456789.987654321", "0." + "3" * 30,
           "1152921504606846975", "1152921504606846977"]
SMALL = ["0", "1", "2", "0.5", "0.25", "3", "1.5", "1b-3", "0.1"]
# What damages put into scripts, and into certificates.
TOKENS = [b"!", b"(", b")", b"|", b"-", b" ", b"?", b"$", b"~", b"@", b"->", b"-/", b"/\\", b"\\/",
          b"<>", b"in",
          b"not", b"fma", b"fixed", b"int", b"sqrt", b"0", b"1e9", b"1b513", b"x", b"{", b"}", b"[",
          b"]", b",",
          b";", b"=", b"#", b"\xff", b"\xc3\xa9", b"\x00", b"\n"]
BYTES = [bytes([k]) for k in (0, 1, 2, 3, 4, 5, 6, 7, 8, 80, 100, 101, 102, 127, 128, 129, 255)]
BYTES += [b"\x80" * 9 + b"\x01", b"\xff" * 9, b"\xff" * 10, b"\x80" * 12]


def value(text):
    """The value of a literal that isn't one of `PAST`."""
    if text.startswith("0x"):
        body, _, power = text[2:].partition("p")
        whole, _, fraction = body.partition(".")
        return (Fraction(int(whole + fraction, 16), 16 ** len(fraction))
                * Fraction(2) ** int(power or 0))
    if "b" in text:
        digits, _, power = text.partition("b")
        return int(digits) * Fraction(2) ** int(power)
    body, _, power = text.partition("e")
    whole, _, fraction = body.partition(".")
    return Fraction(int(whole + fraction), 10 ** len(fraction)) * Fraction(10) ** int(power or 0)


def signed_value(bound):
    """What a bound stands for; 0 for a literal past its limits."""
    literal = bound.lstrip("+-")
    if literal in PAST:
        return Fraction(0)
    return -value(literal) if bound[0] == "-" else value(literal)


class Maker:
    def __init__(self, rng):
        self.rng = rng

    def pick(self, items):
        return self.rng.choice(items)

    def maybe(self, p):
        return self.rng.random() < p


class GrammarMaker(Maker):
    """Texts of the whole grammar, as lists of words."""

    def __init__(self, rng):
        super().__init__(rng)
        self.operators, self.values, self.used = [], [], set()
        self.names = list(NAMES)
        self.ranged = []

    def literal(self):
        if self.maybe(0.01):
            return self.pick(PAST)
        return self.pick(FINE if self.maybe(0.05) else NEAR if self.maybe(0.3) else LITERALS)

    def whole(self):
        fits = self.maybe(0.97)
        some = ["0", "3", "15", "512", "0512", "00"] if fits else ["513", "9999999999999", "0513"]
        number = self.pick(some)
        return (["-"] if self.maybe(0.5) else []) + [number]

    def bound(self):
        return ([self.pick("+-")] if self.maybe(0.3) else []) + [self.literal()]

    def bounds(self, many):
        """Bounds that mostly rise."""
        out = [self.bound() for _ in range(many)]
        return sorted(out, key=lambda b: signed_value("".join(b))) if self.maybe(0.93) else out

    def operator(self):
        if self.maybe(0.5):
            return ["int", "<", self.pick(DIRECTIONS)]
        return ["fixed", "<"] + self.whole() + [",", self.pick(DIRECTIONS)]

    def variable(self):
        free = [n for n in self.names if n not in self.operators]
        name = self.pick(free or ["w"])
        self.used.add(name)
        return name

    def expr(self, depth=2):
        out = self.factor(depth)
        while self.maybe(0.4):
            out += [self.pick("+-*/")] + self.factor(depth)
        return out

    def factor(self, depth):
        minus = ["-"] if self.maybe(0.15) else []
        k = self.rng.random()
        if depth == 0 or k < 0.45:
            return minus + [self.variable()]
        if k < 0.65:
            return minus + [self.literal()]
        if k < 0.75:
            return minus + ["("] + self.expr(depth - 1) + [")"]
        if k < 0.82:
            return minus + ["|"] + self.expr(depth - 1) + ["|"]
        if k < 0.9 and self.operators:
            return minus + [self.pick(self.operators), "("] + self.expr(depth - 1) + [")"]
        if k < 0.95:
            return minus + self.operator() + [">", "("] + self.expr(depth - 1) + [")"]
        e = [self.expr(depth - 1) for _ in range(3)]
        return minus + ["fma", "("] + e[0] + [","] + e[1] + [","] + e[2] + [")"]

    def new_name(self):
        taken = self.used | set(self.operators) | set(self.values)
        free = [n for n in self.names if n not in taken]
        return self.pick(free if free and self.maybe(0.95) else self.names)

    def definition(self):
        name = self.new_name()
        if self.maybe(0.35):
            out = ["@", name, "="] + self.operator() + [">", ";"]
            self.operators.append(name)
            return out
        k = self.rng.random()
        if k < 0.5:
            how = ["="]
        elif k < 0.8 and self.operators:
            how = [self.pick(self.operators), "="]
        elif self.maybe(0.5):
            how = self.operator() + [">="]
        else:
            how = self.operator() + [">", "="]
        if self.maybe(0.4):
            e = self.node()
        else:
            e = self.expr() if self.maybe(0.97) else self.expr() + ["+", name]
        self.values.append(name)
        return [name] + how + e + [";"]

    def proposition(self, goal):
        k = self.rng.random()
        if k < (0.02 if goal else 0.12):
            return ["@", "FIX", "("] + self.expr(1) + [","] + self.whole() + [")"]
        if k < 0.25:
            return self.expr(1) + [self.pick(["<=", ">="])] + self.bound()
        if self.maybe(0.7 if goal else 0.02):
            r = ["?"]
        else:
            low, high = self.bounds(2)
            r = ["["] + low + [","] + high + ["]"]
        if k < 0.35:
            return self.expr(1) + ["-/"] + self.expr(1) + ["in"] + r
        if not goal and self.maybe(0.7):
            return self.node() + ["in"] + r
        return self.expr(1) + ["in"] + r

    def node(self):
        """A name in parentheses: mostly that of a variable, or of a definition that may stand for
        one."""
        name = self.pick(self.values) if self.values and self.maybe(0.4) else self.variable()
        depth = self.rng.randint(0, 2) if self.maybe(0.4) else 0
        if name not in self.values:
            self.ranged.append(name)
        return ["("] * depth + [name] + [")"] * depth

    def formula(self, many=3):
        out = []
        parts = self.rng.randint(1, many)
        for i in range(parts):
            if i:
                out.append("->")
            for j in range(self.rng.randint(1, 3 if self.maybe(0.2) else 2)):
                is_goal = i == parts - 1
                if j:
                    out.append("\\/" if self.maybe(0.02 if is_goal else 0.4) else "/\\")
                claim = self.proposition(is_goal)
                is_bound = "<=" in claim or ">=" in claim
                if self.maybe(0.02 if is_goal or not is_bound else 0.4):
                    out += ["not"] * (1 if self.maybe(0.97) else 2)
                out += claim
        return out

    def split_name(self):
        if self.ranged and self.maybe(0.85):
            return self.pick(self.ranged)
        return self.pick(sorted(self.used) or ["x"]) if self.maybe(0.9) else self.pick(self.names)

    def hint(self):
        k = self.rng.random()
        if k < 0.3:
            out = self.expr(1) + ["->"] + self.expr(1)
            if self.maybe(0.5):
                out += ["{"]
                for i in range(self.rng.randint(1, 3)):
                    out += [","] if i else []
                    out += self.expr(1)
                    out += (["<>", "0"] if self.maybe(0.5)
                            else [self.pick(["<", "<=", ">", ">="])] + self.bound())
                out += ["}"]
            return out + [";"]
        if k < 0.5:
            return self.expr(1) + ["~"] + self.expr(1) + [";"]
        if k < 0.75:
            out = ["$", self.split_name()]
            if self.maybe(0.4):
                out += ["in", self.pick(["4", "64", "1", "064", "00", "65", "0"])]
            elif self.maybe(0.5):
                out += ["in", "("]
                for i, b in enumerate(self.bounds(self.rng.randint(1, 4))):
                    out += ([","] if i else []) + b
                out += [")"]
            return out + [";"]
        out = self.expr(1)
        while self.maybe(0.3):
            out += [","] + self.expr(1)
        out += ["$", self.split_name()]
        while self.maybe(0.5):
            out += [",", self.split_name()]
        return out + [";"]

    def script(self):
        out = []
        for _ in range(self.rng.randint(0, 4)):
            out += self.definition()
        out += ["{"] + self.formula() + ["}"]
        for _ in range(self.rng.randint(0, 4)):
            out += self.hint()
        return out

    # -- scripts at a limit

    def deep(self):
        n = self.rng.randint(61, 68)
        opens, closes = [], []
        for _ in range(n):
            k = self.rng.random()
            if k < 0.4:
                opens, closes = opens + ["("], [")"] + closes
            elif k < 0.6:
                opens, closes = opens + ["|"], ["|"] + closes
            elif k < 0.8:
                opens = opens + ["-"]
            else:
                opens, closes = opens + ["int", "<", "dn", ">", "("], [")"] + closes
        body = opens + ["x"] + closes
        if self.maybe(0.5):
            body = ["-", "-", "y", "*"] + body + ["+"] + ["-"] * self.rng.randint(60, 66) + ["x"]
        if self.maybe(0.3):
            return ["{", "@", "FIX", "("] + body + [",", "0", ")", "->"] + body + ["in", "?", "}"]
        return ["{"] + body + ["in", "?", "}"]

    def long(self):
        out = []
        k = self.rng.randrange(8)
        many = {0: 253, 1: 125, 2: 62, 3: 0, 4: 0, 5: 0, 6: 0, 7: 0}[k] + self.rng.randint(0, 5)
        if k == 0:
            for i in range(many):
                out += (["@", "o%d" % i, "=", "int", "<", "dn", ">", ";"] if i % 3 == 0
                        else ["v%d" % i, "=", "1", ";"])
        out += ["{"]
        if k == 1:
            for i in range(many):
                out += ["x", "<=", "1", "->" if i == many - 2 else "/\\"]
            out += ["x", "in", "?", "}"]
        elif k == 3:
            out += ["x"] + ["+", "x", "*", "-", "x"] * 150
            more = self.rng.randint(0, 70)
            out += (["-", "y", "/", "fma", "(", "1", ",", "x", ",", "|", "y", "|", ")"] * 1
                    + ["+", "z%d" % more])
            for i in range(self.rng.randint(0, 90)):
                out += ["+", self.pick(["x", "1", "z%d" % i, "fma", "int<dn>"])]
                if out[-1] in ("fma",):
                    out += ["(", "x", ",", "x", ",", "x", ")"]
                elif out[-1] == "int<dn>":
                    out += ["(", "x", ")"]
            out += ["in", "?", "}"]
        elif k == 7:
            some = [[64], [65], [8, 8], [4, 16], [8, 9], [2, 2, 2, 2, 2, 2], [3, 21], [3, 22],
                    [64, 2]]
            for sizes in self.pick(some):
                for i in range(sizes):
                    out += ["\\/"] * (i > 0) + ["x", "in", "[", str(i), ",", str(i + 1), "]"]
                out += ["->"]
            out += ["x", "in", "?"] + ["\\/", "x", "in", "?"] * self.maybe(0.1) + ["}"]
        else:
            out += ["x", "in", "[", "0", ",", "1", "]", "->", "x", "in", "?", "}"]
        if k == 2:
            for i in range(many):
                rewrite = ["x", "->", "y", "{", "x", "<>", "0", "}", ";"]
                out += self.pick([["x", "~", "y", ";"], rewrite, ["x", "$", "x", ";"]])
        if k == 4:
            out += ["$", "x", "in", "("]
            for i in range(self.rng.randint(61, 66)):
                out += ([","] if i else []) + [str(i + 1) + "b-7"]
            out += [")", ";"]
        if k == 5:
            for i in range(self.rng.randint(3, 6)):
                out += ["$", "x", ";"]
        if k == 6:
            out += ["x", "$"]
            for i in range(self.rng.randint(3, 9)):
                out += ([","] if i else []) + [self.pick(["x", "y", "z", "a", "b1", "q"])]
            out += [";"]
        return out

    def rounded(self):
        """A definition whose operations are rounded, with nodes about their limit."""
        out = ["@", "q", "=", "int", "<", "dn", ">", ";", "y", "q", "=", "x"]
        out += ["+", "x"] * self.rng.randint(250, 257)
        if self.maybe(0.5):
            out += ["+", "fma", "(", "x", ",", "x", ",", "x", ")"]
        return out + [";", "{", "y", "in", "?", "}"]

    def damaged(self, words):
        words = list(words)
        for _ in range(self.pick([1, 1, 1, 2, 3])):
            k = self.rng.random()
            at = self.rng.randrange(len(words) + 1)
            if k < 0.25:
                del words[at:at + self.rng.randint(1, 2)]
            elif k < 0.5:
                words.insert(at, self.pick(WORDS))
            elif k < 0.75 and at < len(words):
                words[at] = self.pick(WORDS)
            elif k < 0.82:
                words = words[:at]
            elif k < 0.88:
                words.insert(at, self.pick(BAD))
            elif k < 0.94 and at < len(words):
                other = self.rng.randrange(len(words))
                words[at], words[other] = words[other], words[at]
            elif at < len(words):
                words.insert(at, words[at])
        return words

    def text(self, words):
        out = ""
        for i, w in enumerate(words):
            if i:
                touching = out[-1:].isalnum() or out[-1:] in "_." or out[-1:] in "<>-/\\"
                if touching or self.maybe(0.3):
                    out += (self.pick([" ", " ", "\n", "\t", "  ", " # a note\n"])
                            if self.maybe(0.2) else " ")
            out += w
        data = out.encode("utf-8")
        k = self.rng.random()
        if k < 0.02:
            at = self.rng.randrange(len(data) + 1)
            some = self.pick([b"\xff", b"\xc3", b"\xe2\x82", b"\x80", b"\xc0\x80"])
            data = data[:at] + some + data[at:]
        elif k < 0.06 and data:
            data = data[:self.rng.randrange(len(data))]
        return data


def any_grammar(rng):
    """A text of the grammar, at a limit or of a few words; most are damaged."""
    maker = GrammarMaker(rng)
    k = rng.random()
    if k < 0.04:
        words = maker.deep()
    elif k < 0.1:
        words = maker.long()
    elif k < 0.11:
        words = maker.rounded()
    elif k < 0.16:
        words = [maker.pick(WORDS) for _ in range(rng.randint(0, 12))]
    else:
        words = maker.script()
    if rng.random() < 0.6:
        words = maker.damaged(words)
    return maker.text(words)


class ScriptMaker(Maker):
    """Scripts as engineers write them."""

    def __init__(self, rng):
        super().__init__(rng)
        self.variables = ["x", "y", "z", "w"][:rng.randint(1, 4)]
        self.names = list(self.variables)
        self.operators = []
        self.rounded = []
        self.numbers = SMALL if rng.random() < 0.7 else NUMBERS

    def bound(self):
        return self.pick(["", "", "-", "+"]) + self.pick(self.numbers)

    def bounds(self):
        ends = [self.bound(), self.bound()]
        if self.maybe(0.97):
            ends.sort(key=signed_value)
        return ends

    def operator(self):
        if self.maybe(0.2):
            return "int<%s>" % self.pick(DIRECTIONS)
        return "fixed<%d,%s>" % (self.pick([-15, -12, -10, -8, -4, -2, 0, 1, 3]),
                                 self.pick(DIRECTIONS))

    def expr(self, depth):
        k = self.rng.random()
        if depth == 0 or k < 0.2:
            return self.pick(self.names) if self.maybe(0.75) else self.pick(self.numbers)
        if k < 0.27:
            return "-" + self.expr(depth - 1)
        if k < 0.33:
            return "|%s|" % self.expr(depth - 1)
        if k < 0.45:
            return "(%s)" % self.expr(depth - 1)
        if k < 0.5:
            return "fma(%s, %s, %s)" % (self.expr(depth - 1), self.expr(depth - 1), self.expr(0))
        if k < 0.58 and self.operators:
            return "%s(%s)" % (self.pick(self.operators), self.expr(depth - 1))
        operation = self.pick([" + ", " - ", " * ", " * ", " / ", "+", "-", "*"])
        return self.expr(depth - 1) + operation + self.expr(depth - 1)

    def definitions(self):
        out = ""
        for i in range(self.pick([0, 1, 1, 2])):
            out += "@q%d = %s;\n" % (i, self.operator())
            self.operators.append("q%d" % i)
        for i in range(self.pick([0, 0, 1, 2, 3])):
            of = self.expr(self.rng.randint(1, 2))
            if self.operators and self.maybe(0.6):
                out += "d%d %s= %s;\nM%d = %s;\n" % (i, self.pick(self.operators), of, i, of)
                self.names += ["d%d" % i, "M%d" % i]
                self.rounded.append(("d%d" % i, "M%d" % i))
            else:
                out += "d%d = %s;\n" % (i, of)
                self.names.append("d%d" % i)
        return out

    def claim(self, of):
        k = self.rng.random()
        if k < 0.75:
            return "%s in [%s,%s]" % ((of,) + tuple(self.bounds()))
        if k < 0.9:
            return "%s %s %s" % (of, self.pick(["<=", ">="]), self.bound())
        if k < 0.95:
            return "@FIX(%s,%d)" % (of, self.pick([-15, -8, -4, 0, 2]))
        ends = self.pick(["-0.5", "-0.1", "0", "-1b-8"]), self.pick(["0", "0.5", "1b-8", "1"])
        return "%s -/ %s in [%s,%s]" % ((of, self.expr(1)) + ends)

    def goal(self):
        k = self.rng.random()
        if self.rounded and k < 0.4:
            return "%s %s %s in ?" % (self.rounded[-1][0], self.pick(["-", "-/"]),
                                      self.rounded[-1][1])
        of = self.expr(self.rng.randint(0, 3))
        if k < 0.5:
            return "%s -/ %s in ?" % (of, self.expr(1))
        if k < 0.8:
            return "%s in ?" % of
        return "%s in [%s,%s]" % ((of,) + tuple(self.bounds()))

    def hint(self, goals):
        k = self.rng.random()
        if k < 0.3:
            need = ""
            if self.maybe(0.3):
                need = " { %s %s }" % (self.pick(self.names),
                                       self.pick(["<> 0", "> 0", "<= 3", ">= -1", "< 2"]))
            return " %s -> %s%s;" % (self.expr(1), self.expr(1), need)
        if k < 0.45:
            return " %s ~ %s;" % (self.pick(self.names), self.pick(self.names))
        if k < 0.6:
            return " $ %s in %d;" % (self.pick(self.variables), self.rng.randint(1, 5))
        if k < 0.7:
            points = sorted({self.bound() for _ in range(self.rng.randint(1, 3))}, key=signed_value)
            return " $ %s in (%s);" % (self.pick(self.variables), ",".join(points))
        goal = self.pick(goals).split(" in ")[0].split(" -/ ")[0]
        halved = self.rng.sample(self.variables, self.rng.randint(1, min(2, len(self.variables))))
        return " %s $ %s;" % (goal, ", ".join(halved))

    def side(self, claim):
        """The claim, or where it is a bound now and then that it isn't so."""
        is_bound = "<=" in claim or ">=" in claim
        return "not " + claim if self.maybe(0.3 if is_bound else 0.005) else claim

    def script(self):
        out = self.definitions()
        hyps = []
        for n in self.variables:
            if self.maybe(0.9):
                hyps.append("%s in [%s,%s]" % ((n,) + tuple(self.bounds())) if self.maybe(0.8)
                            else self.claim(n))
        for _ in range(self.pick([0, 0, 0, 1])):
            hyps.append(self.claim(self.expr(1)))
        self.rng.shuffle(hyps)
        goals = [self.goal() for _ in range(self.pick([1, 1, 2, 3]))]
        out += "{ "
        if hyps:
            joints = self.pick([[" /\\ "], ["/\\"], [" -> "], [" /\\ ", " \\/ ", " -> "],
                                [" \\/ ", "\\/", " /\\ "]])
            out += ("".join(self.side(h) + self.pick(joints) for h in hyps[:-1])
                    + self.side(hyps[-1]) + " -> ")
        out += " /\\ ".join(goals) + " }"
        for _ in range(self.pick([0, 0, 1, 1, 2])):
            out += self.hint(goals)
        return out


def script(rng):
    """A script as engineers write them."""
    return ScriptMaker(rng).script().encode()


def any_text(rng):
    """A script, or a text of the grammar; one of ten has a damage more."""
    text = script(rng) if rng.random() < 0.75 else any_grammar(rng)
    if rng.random() < 0.1 and text:
        at = rng.randrange(len(text))
        other = rng.choice([b"", b"!", b" ", b")", b"?", b"\xff", text[at:at + 5] * 2])
        text = text[:at] + other + text[at + 1:]
    return text


def damaged(rng, data, words=TOKENS):
    """The bytes with one to four damages."""
    for _ in range(rng.choice([1, 1, 1, 2, 3, 4])):
        at = rng.randrange(len(data) + 1)
        to = min(len(data), at + rng.choice([1, 1, 2, 3, 8, 16, 32]))
        way = rng.randrange(8)
        if way == 0 and at < len(data):
            data = data[:at] + bytes([data[at] ^ 1 << rng.randrange(8)]) + data[at + 1:]
        elif way == 1:
            data = data[:at] + rng.choice(words) + data[at + 1:]
        elif way == 2:
            data = data[:at] + rng.choice(words) + data[at:]
        elif way == 3:
            data = data[:at] + data[to:]
        elif way == 4:
            data = data[:to] + data[at:]
        elif way == 5:
            end = min(len(data), to + to - at)
            data = data[:at] + data[to:end] + data[at:to] + data[end:]
        elif way == 6:
            data = (data[:at] if rng.random() < 0.3
                    else data[:at] + bytes([rng.randrange(256)]) + data[at + 1:])
        else:
            data = (data[:at] + bytes(rng.randrange(256) for _ in range(rng.randint(1, 4)))
                    + data[at:])
    return data
