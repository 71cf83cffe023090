"""Expressions of C on a path: their values and types, in the order in which C evaluates them."""

from pycparser import c_ast as C

from c_nodes import Value, lit, zeros
from c_paths import LARGE, Path
from c_places import Pointer
from c_source import Refused, says
from c_types import COMPARES, INT, common, span

STEPS = {"+": "add", "-": "sub", "*": "mul", "/": "div"}
LOGIC = ("&&", "||") + tuple(COMPARES)
SIZE = (64, False)


def runs(mask):
    """The runs of ones in a mask, as [(first bit, bit after the last)]."""
    found, k = [], 0
    while mask >> k:
        if mask >> k & 1:
            first = k
            while mask >> k & 1:
                k += 1
            found.append((first, k))
        else:
            k += 1
    return found


class Expressions(Path):
    """The part of a run that has expressions; places and statements are other parts."""

    def expr(self, e):
        """The value of an expression, or where it points."""
        if isinstance(e, C.Constant):
            found = self.unit.constant(e)
            if found is None:
                raise Refused(e, "the constant %s (%s) isn't served" % (e.value, e.type))
            return Value(lit(found[0]), found[1])
        if self.points(e):
            return self.pointer(e)
        if isinstance(e, (C.ID, C.StructRef, C.ArrayRef)) or \
                isinstance(e, C.UnaryOp) and e.op == "*":
            return self.load(e)
        if isinstance(e, C.Cast):
            kind = self.unit.kind(e.to_type.type, e)
            if kind is None:
                raise Refused(e, "a cast to void within an expression")
            return self.fits(self.number(e.expr), kind, e)
        if isinstance(e, C.TernaryOp):
            return self.choice(e)
        if isinstance(e, C.FuncCall):
            value = self.call(e)
            if value is None:
                raise Refused(e, "%s gives no value" % says(e))
            return value
        if isinstance(e, C.BinaryOp) and e.op in LOGIC or isinstance(e, C.UnaryOp) and e.op == "!":
            def run():
                return Value(lit(int(self.truth(e))), INT)
            return self.joined(run, e) if self.joins else run()
        if isinstance(e, C.BinaryOp):
            return self.binary(e, e.op, self.number(e.left), self.number(e.right))
        if isinstance(e, C.UnaryOp):
            return self.unary(e)
        if isinstance(e, C.Assignment):
            return self.assign(e)
        if isinstance(e, C.ExprList):
            for it in e.exprs[:-1]:
                self.expr(it)
            return self.expr(e.exprs[-1])
        raise Refused(e, "%s isn't served within an expression" % type(e).__name__)

    def number(self, e):
        """The value of an expression that has to be a number."""
        value = self.expr(e)
        if isinstance(value, Pointer):
            raise Refused(e, "a pointer as a number: %s" % says(e))
        return value

    def choice(self, e):
        """c ? a : b. Its type is that in which a and b meet."""
        if self.points(e.iftrue):
            raise Refused(e, "where a pointer points depends on a condition: %s" % says(e))
        kind = self.type_of(e)

        def run():
            side = e.iftrue if self.truth(e.cond) else e.iffalse
            return self.fits(self.number(side).promoted(), kind, e)
        return self.joined(run, e, "chosen") if self.joins else run()

    def unary(self, e):
        if e.op in ("p++", "++", "p--", "--"):
            place = self.place(e.expr)
            old = self.get(place, e.expr)
            one = C.Constant("int", "1", e.coord)
            made = self.binary(C.BinaryOp(e.op[-1], e.expr, one, e.coord), e.op[-1], old,
                               Value(lit(1), INT))
            new = self.put(place, made, e)
            return old if e.op[0] == "p" else new
        if e.op == "sizeof":
            return Value(lit(self.size_of(e)), SIZE)
        if e.op not in ("-", "+", "~"):
            raise Refused(e, "%s isn't served within an expression" % says(e))
        v = self.number(e.expr).promoted()
        first = 0 if e.op == "-" else -1 if v.kind[1] else span(v.kind)[1]
        return v if e.op == "+" else self.step("sub", lit(first), v.node, kind=v.kind, where=e)

    def size_of(self, e):
        """The bytes of a type, a scalar or an array."""
        if isinstance(e.expr, C.Typename):
            kind = self.unit.kind(e.expr.type, e)
            if kind is not None:
                return kind[0] // 8
        elif isinstance(e.expr, C.ID) and self.points(e.expr):
            thing = self.look(e.expr.name, e)
            if thing.sort == "array" and not thing.outer and thing.size is not None:
                return thing.size * thing.kind[0] // 8
        elif isinstance(e.expr, C.StructRef) and self.field(e.expr)[1] is not None:
            kind, size = self.field(e.expr)
            return size * kind[0] // 8
        else:
            return self.type_of(e.expr)[0] // 8
        raise Refused(e, "%s isn't served: write the number" % says(e))

    # -- operations

    def binary(self, e, op, a, b):
        """An operation of two numbers."""
        if op in ("<<", ">>"):
            return self.shift(e, op, a.promoted(), b.node.const)
        if isinstance(a, Pointer) or isinstance(b, Pointer):
            raise Refused(e, "an operation of pointers: %s" % says(e))
        a, b, kind = self.both(a, b, e)
        if op in "&|^":
            if b.op != "lit" and a.op == "lit":
                a, b = b, a
            return self.bits(e, op, a, b, kind)
        if op == "%":
            return self.rest(e, a, b, kind)
        if op not in STEPS:
            raise Refused(e, "the operation %s isn't served: %s" % (op, says(e)))
        return self.step(STEPS[op], a, b, kind=kind, where=e)

    def shift(self, e, op, a, by):
        if by is None or not 0 <= by < a.kind[0]:
            raise Refused(e, "a shift by what is no constant below the width: %s; write a switch "
                             "over the numbers that it may be" % says(e))
        if by == 0:
            return a
        if op == "<<":
            return self.step("shift", a.node, -by, "dn", kind=a.kind, where=e)
        if a.node.op == "add":
            for x, half in (a.node.args, a.node.args[::-1]):
                if half.const == 1 << by - 1:       # the idiom of rounding to nearest
                    return self.step("shift", x, by, "nu", kind=a.kind, where=e)
        return self.step("shift", a.node, by, "dn", kind=a.kind, where=e)

    def masked(self, a, mask, kind, e):
        """a & mask, for a mask of whole runs of ones, as a sum of differences of low bits."""
        total = None
        for first, last in runs(mask):
            part, (low, high) = a, self.range(a)
            if last < kind[0] and 0 <= low and high < 1 << last:
                if a.op != "lit" and not self.sure(a, (1 << last) - 1):
                    self.goal(a, 0, (1 << last) - 1, e, "within a mask")
            elif last < kind[0]:
                part = self.step("low", a, last, kind=kind, where=e).node
            if first:
                less = self.step("low", part, first, kind=kind, where=e).node
                part = self.step("sub", part, less, kind=kind, where=e).node
            total = part if total is None else \
                self.step("add", total, part, kind=kind, where=e).node
        return Value(lit(0) if total is None else total, kind)

    def bits(self, e, op, a, b, kind):
        """&, | and ^. | and ^ of bits that don't overlap are sums."""
        if a.op == b.op == "lit":
            number = a.const & b.const if op == "&" else a.const | b.const if op == "|" else \
                a.const ^ b.const
            return Value(lit(number), kind)
        if b.op == "lit":
            mask = b.const % (1 << kind[0])
            if op == "&" and len(runs(mask)) <= 3:
                return self.masked(a, mask, kind, e)
            if mask == 0:
                return Value(a, kind)
            high = span(kind)[0] <= b.const <= span(kind)[1]
            if op == "|" and len(runs(mask)) == 1 and high and mask.bit_length() < kind[0]:
                less = self.step("sub", a, self.masked(a, mask, kind, e).node, kind=kind, where=e)
                return self.step("add", less.node, b, kind=kind, where=e)
        if op == "&":
            raise Refused(e, "& with what isn't a constant of at most three runs of ones: %s"
                          % says(e))
        for x, y in ((a, b), (b, a)):
            free = min(zeros(x), kind[0] - 1)
            if free and 0 <= self.range(y)[0] and self.range(y)[1] < 1 << free:
                if y.op != "lit":
                    self.goal(y, 0, (1 << free) - 1, e, "bits apart from those of the other side")
                return self.step("add", x, y, kind=kind, where=e)
        raise Refused(e, "%s of bits that may overlap: %s; mask the sides" % (op, says(e)))

    def rest(self, e, a, b, kind):
        """a % b for a constant b."""
        if b.op != "lit" or b.const <= 0:
            raise Refused(e, "%% by what isn't a constant above 0: %s" % says(e))
        low, high = self.range(a)
        if a.op == "lit":
            return Value(lit(a.const - b.const * (abs(a.const) // b.const)
                             * (1 if a.const >= 0 else -1)), kind)
        if low >= 0:
            if kind[1] and not self.sure(a):
                self.goal(a, 0, LARGE, e, "not negative, by %")
            if b.const & (b.const - 1) == 0:
                if b.const == 1:
                    return Value(lit(0), kind)
                return self.step("low", a, b.const.bit_length() - 1, kind=kind, where=e)
        least = 0 if low >= 0 else -(b.const - 1)
        return self.word("rest", ("rest", a, b.const), least, b.const - 1, kind, e)

    def sure(self, node, most=LARGE):
        """Whether a hypothesis says that a word is in [0, most]."""
        given = self.inputs.get(node.text) if node.op == "var" else None
        return given is not None and given.low >= 0 and given.high <= most

    # -- conditions

    def truth(self, e):
        """Whether a condition holds on this path; what that says of values is kept."""
        if isinstance(e, C.UnaryOp) and e.op == "!":
            return not self.truth(e.expr)
        if isinstance(e, C.BinaryOp) and e.op in ("&&", "||"):
            left = self.truth(e.left)
            return left if left == (e.op == "||") else self.truth(e.right)
        if isinstance(e, C.BinaryOp) and e.op in COMPARES:
            if self.points(e.left) or self.points(e.right):
                return self.compared(e)
            return self.compare(e.op, self.number(e.left), self.number(e.right), e)
        if self.points(e):
            raise Refused(e, "whether a pointer is null: %s" % says(e))
        return self.compare("!=", self.number(e), Value(lit(0), INT), e)

    def compared(self, e):
        """A comparison of two pointers into one array."""
        a, b = self.expr(e.left), self.expr(e.right)
        if not isinstance(a, Pointer) or not isinstance(b, Pointer) or a.array() is None or \
                a.array() != b.array():
            raise Refused(e, "a comparison of pointers to different places: %s" % says(e))
        return COMPARES[e.op](a.offset(), b.offset())

    # -- types of what isn't run

    def type_of(self, e):
        """The type of an expression that isn't run."""
        if isinstance(e, C.Constant):
            found = self.unit.constant(e)
            if found is None:
                raise Refused(e, "the constant %s (%s) isn't served" % (e.value, e.type))
            return found[1]
        if isinstance(e, C.Cast):
            return self.unit.kind(e.to_type.type, e)
        if isinstance(e, C.TernaryOp):
            return common(self.type_of(e.iftrue), self.type_of(e.iffalse))
        if isinstance(e, C.ExprList):
            return self.type_of(e.exprs[-1])
        if isinstance(e, C.Assignment):
            return self.type_of(e.lvalue)
        if isinstance(e, C.FuncCall):
            f = self.unit.function(getattr(e.name, "name", None))
            kind = self.unit.kind(f.decl.type.type, e) if f else None
            if kind is None:
                raise Refused(e, "a call whose type isn't known: %s" % says(e))
            return kind
        if isinstance(e, C.BinaryOp) and e.op not in LOGIC:
            if self.points(e):
                raise Refused(e, "a pointer as a number: %s" % says(e))
            return common(self.type_of(e.left),
                          INT if e.op in ("<<", ">>") else self.type_of(e.right))
        if isinstance(e, C.UnaryOp) and e.op in ("+", "-", "~"):
            return common(self.type_of(e.expr), INT)
        if isinstance(e, C.UnaryOp) and e.op in ("p++", "++", "p--", "--"):
            return self.type_of(e.expr)
        if isinstance(e, C.UnaryOp) and e.op == "sizeof":
            return SIZE
        if isinstance(e, C.BinaryOp) or isinstance(e, C.UnaryOp) and e.op == "!":
            return INT
        return self.place_type(e)
