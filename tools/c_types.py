"""A file of C: its functions, types, tables and constants, and the helpers that it may call without
defining them."""

import re

from pycparser import c_ast as C

from c_source import Refused, Source, says
from script_text import Fault

SIZES = {"char": 8, "short": 16, "int": 32, "long": 64}
INT = (32, True)
SUMS = {"+": lambda a, b: a + b, "-": lambda a, b: a - b, "*": lambda a, b: a * b}
COMPARES = {"<": lambda a, b: a < b, ">": lambda a, b: a > b, "<=": lambda a, b: a <= b,
            ">=": lambda a, b: a >= b, "==": lambda a, b: a == b, "!=": lambda a, b: a != b}
# Helpers that compilers and vendors offer, as their manuals describe them. What wraps there by
# intent is a goal here, and no flag is set.
HELPERS = """
static inline int32_t __SSAT(int32_t x, uint32_t n)
{
    int32_t most = (int32_t)((1u << (n - 1u)) - 1u);
    int32_t least = -most - 1;
    return x > most ? most : x < least ? least : x;
}
static inline uint32_t __USAT(int32_t x, uint32_t n)
{
    int32_t most = (int32_t)((1u << n) - 1u);
    return (uint32_t)(x > most ? most : x < 0 ? 0 : x);
}
static inline int32_t __QADD(int32_t a, int32_t b)
{
    int64_t sum = (int64_t)a + b;
    return (int32_t)(sum > 2147483647 ? 2147483647 : sum < -2147483648 ? -2147483648 : sum);
}
static inline int32_t __QSUB(int32_t a, int32_t b)
{
    int64_t sum = (int64_t)a - b;
    return (int32_t)(sum > 2147483647 ? 2147483647 : sum < -2147483648 ? -2147483648 : sum);
}
static inline int32_t fixprove_low(uint32_t x)
{
    int32_t half = (int32_t)(x & 0xffffu);
    return half > 32767 ? half - 65536 : half;
}
static inline int32_t fixprove_high(uint32_t x)
{
    int32_t half = (int32_t)(x >> 16);
    return half > 32767 ? half - 65536 : half;
}
static inline int32_t fixprove_low_of(int32_t x)
{
    int32_t half = x & 0xffff;
    return half > 32767 ? half - 65536 : half;
}
static inline int32_t __SMULBB(int32_t a, int32_t b)
{
    return fixprove_low_of(a) * fixprove_low_of(b);
}
static inline int32_t __SMULBT(int32_t a, int32_t b)
{
    return fixprove_low_of(a) * (b >> 16);
}
static inline int32_t __SMULTT(int32_t a, int32_t b)
{
    return (a >> 16) * (b >> 16);
}
static inline int32_t __SMLABB(int32_t a, int32_t b, int32_t c)
{
    return fixprove_low_of(a) * fixprove_low_of(b) + c;
}
static inline int32_t __SMULWB(int32_t a, int32_t b)
{
    return (int32_t)(((int64_t)a * fixprove_low_of(b)) >> 16);
}
static inline int32_t __SMUAD(uint32_t a, uint32_t b)
{
    return fixprove_low(a) * fixprove_low(b) + fixprove_high(a) * fixprove_high(b);
}
static inline int32_t __SMLAD(uint32_t a, uint32_t b, int32_t c)
{
    return fixprove_low(a) * fixprove_low(b) + fixprove_high(a) * fixprove_high(b) + c;
}
static inline int32_t __SMMUL(int32_t a, int32_t b)
{
    return (int32_t)(((int64_t)a * b) >> 32);
}
"""
HELPERS = HELPERS.replace("uint32_t", "unsigned").replace("int32_t", "int")
HELPERS = HELPERS.replace("int64_t", "long")
KNOWN = tuple(re.findall(r"(__\w+)\(", HELPERS))
SPELLED = {"__ssat": "__SSAT", "__usat": "__USAT", "__qadd": "__QADD", "__qsub": "__QSUB",
           "__smulbb": "__SMULBB", "__smlabb": "__SMLABB", "__smulwb": "__SMULWB",
           "__smulbt": "__SMULBT", "__smultt": "__SMULTT"}


SPANS = {(w, s): (-2 ** (w - 1), 2 ** (w - 1) - 1) if s else (0, 2 ** w - 1)
         for w in SIZES.values() for s in (True, False)}
EXACT = (192, True)     # of an exact result that is cut to a type afterwards: wide enough for all
SPANS[EXACT] = (-2 ** 191, 2 ** 191 - 1)


def span(kind):
    """The least and the greatest value of a type, given as (width, signed)."""
    return SPANS[kind]


def named(kind):
    """A type's name, int16 or uint32."""
    return ("int%d" if kind[1] else "uint%d") % kind[0]


def common(a, b):
    """The type in which two operands meet, after promotion."""
    return max(a if a[0] >= 32 else INT, b if b[0] >= 32 else INT, key=lambda k: (k[0], not k[1]))


def whole(text):
    """An end of a range: a whole number, or a sum such as -2^31 + 1."""
    if not re.fullmatch(r"[-+0-9a-fA-FxX^() *]+", text) or len(text) > 60:
        raise ValueError(text)
    power = re.findall(r"\^\s*(\d+)", text)
    if text.count("^") != len(power) or any(int(p) > 64 for p in power) or "**" in text:
        raise ValueError(text)
    number = eval(text.replace("^", "**"), {"__builtins__": {}})
    if not isinstance(number, int):
        raise ValueError(text)
    return number


def last_line(node):
    """The last line of a tree's nodes."""
    return max([node.coord.line if node.coord else 0] +
               [last_line(child) for _, child in node.children()])


def parameters(f):
    """{name: declaration} of a function's parameters."""
    some = f.decl.type.args.params if f.decl.type.args else []
    for p in some:
        if isinstance(p, C.EllipsisParam):
            raise Refused(f.decl, "a function with ..")
    return {p.name: p for p in some if isinstance(p, C.Decl) and p.name}


class Unit(Source):
    """A file's functions, types, tables and constants. Of a global that may change, `globals` has
    its declaration."""

    def __init__(self, path, text=None):
        Source.__init__(self, path, text)
        self.functions, self.typedefs, self.tags, self.globals = {}, {}, {}, {}
        self.tables, self.constants, self.helped = {}, {}, {}
        self.texts, self.numbers, self.checked, self.alone = {}, {}, {}, set()
        for d in self.tree.ext:
            self.declared(d)

    def declared(self, d):
        t = getattr(d, "type", None)
        while isinstance(t, (C.TypeDecl, C.PtrDecl, C.ArrayDecl)):
            t = t.type
        if isinstance(t, C.Struct) and t.name and t.decls:
            self.tags[t.name] = t
        if isinstance(t, C.Enum) and t.values:
            self.enumerated(t)
        if isinstance(d, C.FuncDef):
            self.functions[d.decl.name] = d
        elif isinstance(d, C.Typedef):
            self.typedefs[d.name] = d.type
        elif isinstance(d, C.Decl) and d.name and not isinstance(d.type, C.FuncDecl):
            if isinstance(d.type, C.ArrayDecl) and "const" in d.quals and d.init is not None:
                self.tables[d.name] = self.table(d)
            elif isinstance(d.type, C.TypeDecl) and "const" in d.quals and d.init is not None:
                self.constants[d.name] = self.initial(d)
            elif d.init is not None or d.name not in self.globals:
                self.globals[d.name] = d        # (one without a value may stand besides)

    def enumerated(self, t):
        """The constants of an enum, which are ints."""
        number = 0
        for e in t.values.enumerators:
            if e.value is not None:
                number = self.fold(e.value)
                if number is None:
                    raise Refused(e, "the value of %s isn't constant" % e.name)
                number = number[0]
            if not span(INT)[0] <= number <= span(INT)[1]:
                raise Refused(e, "%s is past int" % e.name)
            self.constants[e.name] = number, INT
            number += 1

    def initial(self, d):
        """The value and the type of a const number."""
        kind, value = self.kind(d.type, d), self.fold(d.init)
        if value is None or not span(kind)[0] <= value[0] <= span(kind)[1]:
            raise Refused(d, "the value of %s is no constant of its type" % d.name)
        return value[0], kind

    def helper(self, name):
        """The function of a known helper, whose unit isn't the user's; None of another name."""
        name = SPELLED.get(name, name)
        if name not in KNOWN:
            return None
        if not self.helped:
            self.helped.update(Unit("helpers.c", HELPERS).functions)
        return self.helped[name]

    def function(self, name):
        """A function of the file, or a known helper."""
        return self.functions.get(name) or self.helper(name) or self.helped.get(name)

    # -- what comments say

    def said(self, name, word):
        """What comments of a function say after `word:`, as `comment` gives it. Those up to the end
        of an earlier function that isn't static are of that."""
        lines = [(f.decl.coord.line, f.decl.coord.file) for f in self.functions.values()]
        here = self.functions[name].decl.coord
        after = [n for n, file in lines if n > here.line and file == here.file]
        others = [last_line(f) for n, f in self.functions.items()
                  if f.decl.coord.line < here.line and f.decl.coord.file == here.file
                  and "static" not in f.decl.storage and n != name + "_exact"]
        return self.comment(here.line, min(after, default=1 << 30), word, max(others, default=0))

    def ranges(self, name, further=()):
        """{input: (low, high)} and {array: size}, by the comment `ranges: a=-8..7 b[4]=0..255` and
        by words of the command line, which come last."""
        form = r"[A-Za-z_][\w.>\[\]-]*\s*=\s*[^\s,]+(?:\s*\.\.\s*[^\s,]+)?"
        words = [w for _, text in self.said(name, "ranges") for w in re.findall(form, text)]
        found, sizes = {}, {}
        for word in words + list(further):
            match = re.fullmatch(r"(\w+)(?:\[(\d+)\])?\s*=\s*(.+?)\s*\.\.\s*(.+)", word)
            try:
                key, size, low, high = match.groups()
                found[key] = whole(low), whole(high)
            except (AttributeError, ValueError, SyntaxError, TypeError, NameError, OverflowError):
                if word in further:
                    raise Fault("--range %s isn't of the form a=LOW..HIGH" % word)
                raise Refused(self.functions[name].decl,
                              "the range %s isn't of the form a=LOW..HIGH" % word)
            if found[key][0] > found[key][1]:
                raise Refused(self.functions[name].decl, "the range %s is empty" % word)
            if size:
                sizes[key] = int(size)
        return found, sizes

    # -- types

    def plain(self, t):
        """A type without its declarator and typedefs."""
        while True:
            if isinstance(t, C.TypeDecl):
                if "volatile" in t.quals or "_Atomic" in t.quals:
                    raise Refused(t.type, "volatile isn't served: copy it into a parameter")
                t = t.type
            elif isinstance(t, C.IdentifierType) and t.names[-1] in self.typedefs:
                t = self.typedefs[t.names[-1]]
            elif isinstance(t, C.Struct) and not t.decls and t.name in self.tags:
                t = self.tags[t.name]
            else:
                return t

    def fields(self, t):
        """{field: (type, size or None)} of a struct of integers and arrays of them, None of another
        type."""
        t = self.plain(t)
        if not isinstance(t, C.Struct):
            return None
        if not t.decls:
            raise Refused(t, "a struct whose fields aren't known here")
        found = {}
        for d in t.decls:
            if not isinstance(d, C.Decl) or not d.name:
                raise Refused(t, "a struct within a struct: name its fields here")
            if d.bitsize is not None:
                raise Refused(d, "a field of bits: %s" % d.name)
            if isinstance(d.type, C.ArrayDecl):
                size = self.size(d)
                found[d.name] = self.kind(d.type.type, d), size
            else:
                found[d.name] = self.kind(d.type, d), None
        return found

    def size(self, d):
        """The constant size of an array's declaration; None where none is written."""
        if d.type.dim is None:
            return None
        size = self.fold(d.type.dim)
        if size is None or not 1 <= size[0] <= 1 << 16:
            raise Refused(d, "an array whose size isn't a constant from 1 to 65536")
        return size[0]

    def kind(self, t, where):
        """(width, signed) of an integer type, None of void."""
        t = self.plain(t)
        if not isinstance(t, C.IdentifierType):
            raise Refused(where, "a type that isn't an integer's: %s" % says(t))
        names = t.names
        if names == ["void"]:
            return None
        if set(names) - set(SIZES) - {"signed", "unsigned"}:
            what = " ".join(names)
            more = ": write what is meant in integers" if what in ("float", "double") else ""
            raise Refused(where, "the type %s isn't served%s" % (what, more))
        if names == ["char"]:
            raise Refused(where, "plain char, whose sign depends on the compiler: "
                                 "write signed char or unsigned char")
        size = SIZES[([n for n in names if n != "int" and n in SIZES] or ["int"])[0]]
        return size, "unsigned" not in names

    def says(self, e):
        """An expression as C text, kept."""
        if id(e) not in self.texts:
            self.texts[id(e)] = says(e), e
        return self.texts[id(e)][0]

    # -- constants

    def constant(self, e):
        """A whole number's value and type by its suffix, None if it isn't one."""
        if id(e) not in self.numbers:
            self.numbers[id(e)] = self.spelled(e), e
        return self.numbers[id(e)][0]

    @staticmethod
    def spelled(e):
        text = e.value.lower() if isinstance(e, C.Constant) else ""
        if re.fullmatch(r"'[^\\']'", text):
            return ord(e.value[1]), INT
        match = re.fullmatch(r"(0x[0-9a-f]+|[0-9]+)([ul]*)", text)
        if not match:
            return None
        digits, suffix = match.groups()
        number = int(digits, 8) if re.fullmatch("0[0-7]+", digits) else int(digits, 0)
        for kind in ((32, True), (32, False), (64, True), (64, False)):
            fits = number <= span(kind)[1] and ("l" not in suffix or kind[0] == 64)
            able = not kind[1] if "u" in suffix else kind[1] or digits.startswith("0")
            if fits and able:
                return number, kind
        raise Refused(e, "the constant %s has no type" % e.value)

    def fold(self, e):
        """A constant expression's value and type, by C's typing; None where it isn't constant.
        Raises Refused where a value leaves its type."""
        if isinstance(e, C.Constant):
            return self.constant(e)
        if isinstance(e, C.ID):
            return self.constants.get(e.name)
        if isinstance(e, C.Cast):
            inner, kind = self.fold(e.expr), self.kind(e.to_type.type, e)
            return None if inner is None or kind is None else self.within(inner[0], kind, e)
        if isinstance(e, C.UnaryOp) and e.op in ("+", "-", "~"):
            inner = self.fold(e.expr)
            if inner is None:
                return None
            value, kind = inner[0], common(inner[1], INT)
            flip = ~value if kind[1] else span(kind)[1] - value
            return self.within({"+": value, "-": -value, "~": flip}[e.op], kind, e)
        if isinstance(e, C.BinaryOp):
            a, b = self.fold(e.left), self.fold(e.right)
            return None if a is None or b is None else self.folded(e, a, b)
        return None

    def folded(self, e, a, b):
        """A constant operation."""
        if e.op in ("<<", ">>"):
            kind = common(a[1], INT)
            if not 0 <= b[0] < kind[0]:
                raise Refused(e, "a shift past the width: %s" % says(e))
            return self.within(a[0] << b[0] if e.op == "<<" else a[0] >> b[0], kind, e)
        kind = common(a[1], b[1])
        a, b = self.within(a[0], kind, e)[0], self.within(b[0], kind, e)[0]
        if e.op in SUMS:
            return self.within(SUMS[e.op](a, b), kind, e)
        if e.op in COMPARES:
            return int(COMPARES[e.op](a, b)), INT
        if e.op in ("/", "%"):
            if b == 0:
                raise Refused(e, "a division by 0: %s" % says(e))
            quotient = abs(a) // abs(b) * (1 if (a < 0) == (b < 0) else -1)
            self.within(quotient, kind, e)
            return self.within(quotient if e.op == "/" else a - b * quotient, kind, e)
        if e.op in ("&", "|", "^"):
            value = a & b if e.op == "&" else a | b if e.op == "|" else a ^ b
            return self.within(value, kind, e)
        return None

    @staticmethod
    def within(value, kind, e):
        if not span(kind)[0] <= value <= span(kind)[1]:
            raise Refused(e, "the constant %s leaves its type %s" % (says(e), named(kind)))
        return value, kind

    def table(self, d):
        """The entries of a const array and their type."""
        if not isinstance(d.init, C.InitList):
            raise Refused(d, "the table %s has no list of entries" % d.name)
        if isinstance(d.type.type, C.ArrayDecl):
            raise Refused(d, "the table %s has two dimensions: write it as one" % d.name)
        kind, found = self.kind(d.type.type, d), []
        for e in d.init.exprs:
            value = None if isinstance(e, C.NamedInitializer) else self.fold(e)
            if value is None:
                raise Refused(e, "an entry of %s is no constant" % d.name)
            found.append(self.within(value[0], kind, e)[0])
        size = self.size(d)
        size = len(found) if size is None else size
        if size < len(found):
            raise Refused(d, "%s has more entries than its size" % d.name)
        return found + [0] * (size - len(found)), kind
