"""Trees of random routines in C: expressions with their texts and a guess of their ranges,
statements, names, functions."""

from c_meaning import SPANS

LEVELS = {"*": 13, "/": 13, "%": 13, "+": 12, "-": 12, "<<": 11, ">>": 11, "<": 10, ">": 10,
          "<=": 10, ">=": 10, "==": 9, "!=": 9, "&": 8, "^": 7, "|": 6, "&&": 5, "||": 4}
SPELLED = {(8, True): ("int8_t", "signed char"), (8, False): ("uint8_t", "unsigned char"),
           (16, True): ("int16_t", "short", "q15"), (16, False): ("uint16_t", "unsigned short"),
           (32, True): ("int32_t", "int", "q31"), (32, False): ("uint32_t", "unsigned"),
           (64, True): ("int64_t", "long", "long long"), (64, False): ("uint64_t",)}
KINDS = [(8, True), (8, False), (16, True), (16, True), (16, True), (16, False), (32, True),
         (32, True), (32, True), (32, False), (32, False), (64, True), (64, True), (64, False)]
NAMES = "a b c d e g k m n r t u v w x y z aa bb cc dd ee hh ii jj oo pp qq rr tt uu vv".split()

KNOWN = ("__SSAT", "__SSAT", "__USAT", "__QADD", "__QSUB", "__SMULBB", "__SMULWB", "__SMMUL")


class E:
    """An expression: what it is, its type, a guess of its range, its text and that's level, and
    the names in it."""

    def __init__(self, op, kind, ends, text, level, names, *args):
        self.op, self.kind, self.ends, self.text, self.level = op, kind, ends, text, level
        self.names, self.args = frozenset(names), args

    def at(self, level):
        """Its text as an operand of an operation of this level."""
        return self.text if self.level >= level else "(%s)" % self.text


class S:
    """A statement: what it is, its first line, its parts; `line` is its place in the file."""

    def __init__(self, op, text, *args):
        self.op, self.text, self.args, self.line = op, text, args, 0


class Var:
    """A name: its type (of an array its elements'), a guess of its range; `pointer` is None,
    "array", "scalar" or "struct"; `sort` is what Meaning takes; `size` of arrays; `left` says
    whether it may be written."""

    def __init__(self, name, sort, ends, pointer=None, size=None, left=True, text=None):
        self.name, self.sort, self.ends, self.pointer, self.size = name, sort, ends, pointer, size
        self.left, self.text, self.array = left, text, size is not None
        self.fields = sort if isinstance(sort, dict) else None


class Function:
    """A helper or the routine."""

    def __init__(self, name, params, back, body):
        self.name, self.params, self.back, self.body = name, params, back, body


def span(kind):
    """The least and the greatest number of a type."""
    return SPANS[kind]


def inside(ends, kind):
    """Whether a range is within a type."""
    return span(kind)[0] <= ends[0] and ends[1] <= span(kind)[1]


def hull(*some):
    """The least range around some."""
    return min(a for a, _ in some), max(b for _, b in some)


def guess(op, p, q):
    """A range of an operation's numbers."""
    (a, b), (c, d) = p, q
    if op in "+-":
        return (a + c, b + d) if op == "+" else (a - d, b - c)
    if op == "*":
        some = [x * y for x in p for y in q]
        return min(some), max(some)
    if op == "/":
        most = max(abs(a), abs(b))
        return (0 if a >= 0 < c else -most), most
    if op == "%":
        return (0 if a >= 0 else 1 - d), d - 1
    if op == "<<":
        return a << d, b << d
    if op == ">>":
        return a >> c, b >> c
    if op == "&":
        return 0, d
    most = (1 << max(abs(x) for x in (a, b, c, d)).bit_length()) - 1
    return (0 if a >= 0 else -most - 1), most
