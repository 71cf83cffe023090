"""Facts, and what each numbered rule gives: docs/FORMATS.md, "Facts"; docs/RULES.md, "The rules".

The value of a BND, ABS or REL fact is an interval, or NONE of a REL whose sides are both 0; of a
FIX fact it is the power of two, and of NZR and VOID it is True.
"""
import ast
from fractions import Fraction

from .grid import (INF, ONE, UNIT, WHOLE, ZERO, add, div, down, error, inside, meet, mul, multiples,
                   neg, outward, place, rounded, size, sub)
from .script import worth

NONE, VOID = "none", (("VOID",), True)


def stronger(fact, other):
    """Whether the first fact is as strong as the other."""
    (slot, value), (wanted, least) = fact, other
    if fact == VOID or slot != wanted:
        return fact == VOID
    if NONE in (value, least):
        return value == NONE
    return value >= least if slot[0] in ("FIX", "NZR") else inside(value, least)


def meeting(fact, other):
    """What both facts say together, or None if they are of different slots."""
    (slot, value), (wanted, more) = fact, other
    if VOID in (fact, other) or slot != wanted:
        return VOID if VOID in (fact, other) else None
    if slot[0] in ("FIX", "NZR"):
        return slot, max(value, more)
    both = None if NONE in (value, more) else meet(value, more)
    return (slot, both) if both else (slot, NONE) if slot[0] == "REL" else VOID


def by_sign(i, p):  # row 13
    high, low = i[0] > -p[0], i[1] < p[0]
    return VOID if high and low else p if high else neg(p) if low else None


def signed_error(rounding, i):  # row 43
    if rounding[0] not in ("zr", "aw") or i[0] < 0 < i[1]:
        return None
    way = "dn" if (rounding[0] == "zr") == (i[0] >= 0) else "up"
    return ZERO if i == ZERO else error(way, 0, Fraction(2) ** rounding[1])


def literal_place(*literal):  # row 21
    value = worth(literal)
    if value.denominator & (value.denominator - 1):
        return None
    return place(value.numerator) + 513 - value.denominator.bit_length() if value else 512


def of_none(i, n, value):  # rows 53, 54 and 61
    return value if i[0] <= n <= i[1] else VOID


def by_share(i, k, share):  # row 61
    if NONE in (i, k):
        return VOID if i == k else of_none(share, 0, k) if i == NONE else of_none(share, UNIT, i)
    return add(mul(i, share), mul(k, sub(ONE, share)))


def chained(i, k):  # rows 56 and 58
    return NONE if NONE in (i, k) else add(add(i, k), mul(i, k))


def less_one(i):  # rows 57 and 59
    return i and sub(i, ONE)


# Each row: its number, premises -> conclusions, and the conclusion's value by those of the
# premises. R(x) is a rounding of x, and C a literal; what these have goes before the values.
ROWS = (
    (1, "-> BND(C)", lambda *c: outward(worth(c), worth(c))),
    (2, "BND(a) -> BND(-a)", neg),
    (3, "BND(a), BND(b) -> BND(a + b)", add),
    (4, "BND(a), BND(b) -> BND(a - b)", sub),
    (5, "BND(x) -> BND(x - x)", lambda i: ZERO),
    (6, "BND(a), BND(b) -> BND(a * b)", mul),
    (7, "ABS(x) -> BND(x * x)", lambda i: mul(i, i)),
    (8, "BND(a), BND(b) -> BND(a / b)", div),
    (9, "BND(a), NZR(b) -> BND(a / b)", lambda i, _: WHOLE),
    (10, "NZR(x) -> BND(x / x)", lambda _: ONE),
    (11, "BND(x) -> ABS(x)", size),
    (12, "ABS(x) -> BND(x)", lambda i: (-i[1], i[1])),
    (13, "BND(x), ABS(x) -> BND(x) | VOID", by_sign),
    (14, "ABS(x) -> BND(abs(x))", lambda i: i),
    (15, "BND(abs(x)) -> ABS(x) | VOID", lambda i: VOID if i[1] < 0 else i),
    (16, "ABS(a) -> ABS(-a)", lambda i: i),
    (17, "ABS(a), ABS(b) -> ABS(a * b)", mul),
    (18, "ABS(a), ABS(b) -> ABS(a / b)", div),
    (19, "ABS(a), ABS(b) -> ABS(a + b) | ABS(a - b)", lambda i, j: (
        down(max(0, i[0] - j[1], j[0] - i[1])), add(i, j)[1])),
    (21, "-> FIX(C)", literal_place),
    (22, "FIX(a) -> FIX(-a)", lambda k: k),
    (23, "FIX(a), FIX(b) -> FIX(a + b) | FIX(a - b)", min),
    (24, "FIX(a), FIX(b) -> FIX(a * b)", lambda k, n: k + n),
    (25, "BND(x) -> FIX(R(x))", lambda _, lsb, i: lsb),
    (26, "FIX(x) -> FIX(R(x))", lambda _, lsb, k: k if k >= lsb else None),
    (27, "BND(x) -> FIX(x)", lambda i: None if i[0] != i[1] else place(i[0]) if i[0] else 512),
    (28, "BND(x), FIX(x) -> BND(x)", multiples),
    (31, "BND(x) -> NZR(x)", lambda i: None if i[0] <= 0 <= i[1] else True),
    (32, "ABS(x) -> NZR(x)", lambda i: True if i[0] > 0 else None),
    (33, "NZR(a), NZR(b) -> NZR(a * b)", min),
    (34, "NZR(a), NZR(b) -> NZR(a / b)", min),
    (35, "NZR(a) -> NZR(-a)", lambda n: n),
    (36, "REL(x, y), NZR(x) -> NZR(y) | VOID", lambda i, n: VOID if i == NONE else n),
    (36, "REL(x, y), NZR(y) -> NZR(x) | VOID", lambda i, n: VOID if i == NONE else n),
    (41, "BND(x) -> BND(R(x))", lambda d, lsb, i: (rounded(d, lsb, i[0]), rounded(d, lsb, i[1]))),
    (42, "BND(x) -> BND(R(x) - x)", lambda d, lsb, i: error(d, lsb, Fraction(2) ** lsb)),
    (43, "BND(x) -> BND(R(x) - x)", lambda d, lsb, i: signed_error((d, lsb), i)),
    (44, "FIX(x) -> BND(R(x) - x)", lambda d, lsb, k: ZERO if k >= lsb else error(
        d, lsb, Fraction(2) ** lsb - Fraction(2) ** k)),
    (51, "BND(x) -> REL(x, x)", lambda i: ZERO),
    (52, "BND(x - y), BND(y) -> REL(x, y)", div),
    (53, "REL(x, y), BND(y) -> BND(x - y) | VOID", lambda i, j: (
        of_none(j, 0, ZERO) if i == NONE else mul(j, i))),
    (54, "REL(x, y), BND(y) -> BND(x) | VOID", lambda i, j: (
        of_none(j, 0, ZERO) if i == NONE else mul(j, add(ONE, i)))),
    (55, "REL(x, y), NZR(y) -> BND(x / y) | VOID", lambda i, _: VOID if i == NONE else add(ONE, i)),
    (56, "REL(a, c), REL(b, d) -> REL(a * b, c * d)", chained),
    (57, "REL(a, c), REL(b, d), NZR(d) -> REL(a / b, c / d) | VOID", lambda i, k, _: (
        VOID if k == NONE else NONE if i == NONE else less_one(div(add(ONE, i), add(ONE, k))))),
    (58, "REL(a, b), REL(b, c) -> REL(a, c)", chained),
    (59, "REL(x, y) -> REL(y, x)", lambda i: i if i == NONE else less_one(div(ONE, add(ONE, i)))),
    (60, "REL(a, b) -> REL(-a, -b)", lambda i: i),
    (61, "REL(a, c), REL(b, d), BND(c / (c + d)) -> REL(a + b, c + d) | VOID", by_share),
    (71, "BND(a - c), BND(b - d) -> BND((a + b) - (c + d))", add),
    (72, "BND(a - c), BND(b - d) -> BND((a - b) - (c - d))", sub),
    (73, "BND(a), BND(b - d), BND(a - c), BND(d) -> BND(a * b - c * d)",
     lambda i, j, k, n: add(mul(i, j), mul(k, n))),
    (74, "BND(a - b) -> BND((-a) - (-b))", neg),
    (75, "BND(a - b), BND(b - c) -> BND(a - c)", add),
    (76, "BND(a - b), BND(c - b) -> BND(a - c)", sub),
    (77, "BND(b), BND(a - b) -> BND(a)", add),
    (78, "BND(a), BND(a - b) -> BND(b)", sub),
    (90, "BND(x), FIX(x) -> VOID", lambda i, k: None if multiples(i, k) else VOID),
    (91, "BND(x), NZR(x) -> VOID", lambda i, _: VOID if i == ZERO else None),
    (92, "REL(x, y), NZR(y) -> VOID", lambda i, _: VOID if i == NONE else None),
)
OPERATIONS = {ast.USub: "neg", ast.Add: "add", ast.Sub: "sub", ast.Mult: "mul", ast.Div: "div"}


def form(tree):
    """A row's words as a name, or as a kind of node or slot with the forms of its parts."""
    if isinstance(tree, ast.Name):
        return {"VOID": ("VOID",), "C": ("lit",)}.get(tree.id, tree.id)
    if isinstance(tree, ast.Call):
        kind, parts = {"R": "rnd"}.get(tree.func.id, tree.func.id), tree.args
    else:
        kind = OPERATIONS[type(tree.op)]
        parts = [tree.operand] if kind == "neg" else [tree.left, tree.right]
    return (kind,) + tuple(map(form, parts))


TABLE = {}
for number, words, value_of in ROWS:
    before, _, after = words.partition("->")
    before = form(ast.parse("P(%s)" % before, mode="eval").body)[1:]
    for conclusion in after.split("|"):
        row = (before, form(ast.parse(conclusion.strip(), mode="eval").body), value_of)
        TABLE.setdefault(number, []).append(row)


def fits(wanted, had, nodes, names):
    """Whether a slot or a node's number has the form; keeps in `names` what its names stand for."""
    had = nodes[had] if isinstance(had, int) else had
    if wanted[0] != had[0]:
        return False
    if wanted[0] in ("rnd", "lit"):
        names[0], had = had[1:3 if wanted[0] == "rnd" else 4], had[:1] + had[3:]
    for a, b in zip(wanted[1:], had[1:]):
        if names.setdefault(a, b) != b if isinstance(a, str) else not fits(a, b, nodes, names):
            return False
    return True


def conclude(nodes, hints, rule, arg, premises, slot):
    """The fact that the rule gives on the slot by the premises, or VOID, or None."""
    if rule == 80:
        return rewritten(hints[arg], premises, slot) if arg < len(hints) else None
    for wanted, conclusion, value in TABLE.get(rule, ()) if arg == 0 else ():
        names = {}
        if len(wanted) == len(premises) and fits(conclusion, slot, nodes, names) and all(
                fits(a, b[0], nodes, names) for a, b in zip(wanted, premises)):
            found = value(*names.get(0, ()), *(fact[1] for fact in premises))
            return found if found is VOID else drawn(slot, found)
    return None


def drawn(slot, value):
    """The fact that gives the slot this value, or None if it isn't drawn."""
    if slot[0] == "VOID" or value is None:
        return None
    if slot[0] == "ABS":
        value = meet(value, (0, INF))
    elif slot[0] == "FIX":
        value = min(value, 512) if value >= -1024 else None
    drops = value is None or slot[0] == "REL" and value != NONE and value[0] <= -UNIT
    return None if drops else (slot, value)


def rewritten(hint, premises, slot):
    """Row 80: the fact on a that the first premise is on b, if the others show their part."""
    left, right, divisors, needs = hint
    wanted = [(slot[0], right)] + [("NZR", n) for n in divisors] + [
        ("NZR" if sign == "<>" else "BND", n) for sign, n, _ in needs]
    if slot[0] in ("REL", "VOID") or slot[1] != left or [fact[0] for fact in premises] != wanted:
        return None
    for (sign, _, bound), (_, value) in zip(needs, premises[1 + len(divisors):]):
        if sign != "<>":
            end = value[1 if sign[0] == "<" else 0]
            end = end if end in (INF, -INF) else Fraction(end, UNIT)
            if not {"<": end < bound, "<=": end <= bound, ">": end > bound,
                    ">=": end >= bound}[sign]:
                return None
    return slot, premises[0][1]
