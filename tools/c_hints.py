"""Hints of `from_c`'s own, each of which the program checks, and twins that a file gives."""

import random
from fractions import Fraction

from pycparser import c_ast as C, c_parser

from c_nodes import computed, interpolation, linear, weights
from c_scripts import atom, digits
from c_source import Refused, says

MOST = 24       # hints of a script, besides those of low bits


def collected(terms, const):
    return " + ".join(["%s * %s" % (digits(f), k) for k, f in terms.items()] +
                      ([digits(const)] if const or not terms else []))


def hull(path, a, b):
    (p, q), (r, s) = path.range(a), path.range(b)
    return Fraction(min(p, r)), Fraction(max(q, s))


def own_hints(path, nodes, conds):
    """Rewritings of what intervals lose: a value that occurs twice in a sum is collected, a product
    of two terms in one value is completed to a square, x * c / (a * x + b) is c / (a + b / x),
    y / x is c + (y - x) / x if a condition compares these, a mean lies between what it is of."""
    found, todo, seen = [], list(nodes), set()
    while todo:
        node = todo.pop(0)
        if id(node) not in seen and node.op not in ("lit", "var"):
            seen.add(id(node))
            todo += node.inner()
            found += of_sum(path, node) if node.op in ("add", "sub") else []
            found += of_product(node) if node.op == "mul" else []
            found += of_quotient(node, conds) if node.op == "div" else []
    return list(dict.fromkeys(found))[:MOST]


def of_sum(path, node):
    """A sum collected, and a mean by its distance from either end."""
    found, me = [], atom(node)
    for through in (False, True):
        terms, const, met = linear(node, through)
        if met > len([k for k in terms if k[0] != "("]):
            found.append("%s -> %s;" % (me, collected(terms, const)))
            break
    for x, y in (node.args, node.args[::-1]) if node.op == "add" else ():
        some, other = weights(x, y), interpolation(x, y)
        for end in hull(path, some[1], some[3]) if some else ():
            form = "{0} -> {1} * ({2} - {5}) + {3} * ({4} - {5}) + {6};"
            found.append(form.format(me, *[atom(n) for n in some[:4]], digits(end),
                                     digits(end * some[4])))
        for end in hull(path, x, other[0]) if other else ():
            form = ("{0} -> ({1} - {5}) * (1 - {3} * 1b-{4}) + ({2} - {5}) * ({3} * 1b-{4}) + {5} "
                    "+ ({6} - {7} * 1b-{4});")
            found.append(form.format(me, atom(x), atom(other[0]), atom(other[1]), other[2],
                                     digits(end), atom(y), atom(y.args[0])))
    return found


def of_product(node):
    """A product of two terms in one value, completed to a square."""
    (p, c, _), (q, d, _) = linear(node.args[0]), linear(node.args[1])
    if node.args[0] is node.args[1] or len(p) != 1 or list(p) != list(q):
        return []
    (x, f), = p.items()
    half = (f * d + q[x] * c) / (2 * f * q[x])
    rest = c * d - (f * d + q[x] * c) ** 2 / (4 * f * q[x])
    if digits(half) is None or digits(rest) is None or digits(f * q[x]) is None:
        return []
    form = "{0} -> {1} * (({2} + {3}) * ({2} + {3})) + {4};"
    return [form.format(atom(node), digits(f * q[x]), x, digits(half), digits(rest))]


def of_quotient(node, conds):
    """A quotient whose sides have a value in common, or are compared by a condition."""
    found, n = [], node.args[1]
    (p, c, _), (q, d, _) = linear(node.args[0]), linear(n)
    if len(p) != 1 or c != 0:
        return []
    (x, f), = p.items()
    me = "%s / %s" % (atom(node.args[0]), atom(n))
    for a, _, b, _ in conds:
        for sign, under, over in ((1, b, a), (-1, a, b)):
            if b.op != "lit" and n is under and x == atom(over):
                form = "{0} -> {1} + {2} * (({3} - {4}) / {5});"
                found.append(form.format(me, digits(f), digits(sign * f), atom(a), atom(b),
                                         atom(n)))
    if x in q and len(q) + (d != 0) > 1:
        form = "{0} -> {1} / ({2} + ({3}) / {4});"
        found.append(form.format(me, digits(f), digits(q.pop(x)), collected(q, d), x))
    return found


# ---- a twin that the file gives

def given_twins(unit, name, path):
    """{output: (text, function of a point)} by comments `exact: ..`, and by a function NAME_exact
    with declarations and one return, in doubles that are read as exact numbers."""
    found, f = {}, unit.functions.get(name + "_exact")
    for key, text in unit.said(name, "exact"):
        try:
            text = "double f(void) { return %s; }" % text.strip().rstrip(";")
            tree = c_parser.CParser().parse(text, unit.path)
            e = tree.ext[0].body.block_items[0].expr
        except (c_parser.ParseError, IndexError, AttributeError):
            raise Refused(unit.functions[name].decl, "the comment `exact:` has no expression")
        found[key or "result"] = real(e, {}, path, unit.functions[name].decl)
    env = {}
    for s in f.body.block_items if f else ():
        if not (isinstance(s, C.Decl) and s.init is not None or isinstance(s, C.Return)):
            raise Refused(s, "an exact twin has declarations with a value and one return")
        env[getattr(s, "name", "")] = real(s.init if isinstance(s, C.Decl) else s.expr, env, path)
    return dict(found, result=env[""]) if "" in env else found


def real(e, env, path, where=None):
    """An expression of a twin, in exact arithmetic: its text in scripts, and its value as a
    function of a point. `where` is the place of a comment's."""
    here = where or e
    if isinstance(e, C.Constant):
        digit = e.value.rstrip("fFlLuU") if not e.value.lower().startswith("0x") else \
            str(int(e.value.rstrip("lLuU"), 16))
        try:
            number = Fraction(digit)
        except ValueError:
            raise Refused(here, "a twin has no constant %s" % e.value)
        return digit, lambda point: number
    if isinstance(e, (C.ID, C.StructRef, C.ArrayRef)):
        return named(e, env, path, here)
    if isinstance(e, C.Cast):
        return real(e.expr, env, path, where)
    if isinstance(e, C.UnaryOp) and e.op == "-":
        text, f = real(e.expr, env, path, where)
        return "(-%s)" % text, lambda point: -f(point)
    if isinstance(e, C.BinaryOp) and e.op in "+-*/":
        (a, f), (b, g) = real(e.left, env, path, where), real(e.right, env, path, where)
        op = {"+": Fraction.__add__, "-": Fraction.__sub__, "*": Fraction.__mul__,
              "/": Fraction.__truediv__}[e.op]
        return "(%s %s %s)" % (a, e.op, b), lambda point: op(f(point), g(point))
    raise Refused(here, "a twin has + - * / alone: %s" % says(e))


def named(e, env, path, where):
    """A name of a twin: an input, or a value that the twin has declared."""
    key = says(e)
    if isinstance(e, C.StructRef):
        key = "%s_%s" % (says(e.name), e.field.name)
    elif isinstance(e, C.ArrayRef):
        key = "%s_%s" % (says(e.name), says(e.subscript))
    if key in env:
        return env[key]
    if key not in path.inputs or path.inputs[key].node.rule is not None:
        raise Refused(where, "%s in the twin is no input that the routine reads" % says(e))
    return path.inputs[key].node.name, lambda point: Fraction(point[key])


def twin_hints(path, node, given):
    """Hints for an error: the error of a quotient by those of its sides, and, if the twin that the
    file gives differs from the path's own by a constant at all points that are tried, its error by
    the own one's."""
    found, todo, seen, own = [], [node], set(), atom(node, True)
    while todo:
        n = todo.pop()
        if id(n) not in seen and n.rounds:
            seen.add(id(n))
            todo += n.inner()
            if n.op == "div" and any(x.rounds for x in n.args):
                a, b, c, d = (atom(x, twin) for twin in (False, True) for x in n.args)
                form = "({0} - {2}) / {1};" if b == d else \
                    "(({0} - {2}) - {2} / {3} * ({1} - {3})) / {1};"
                found.append("{0} / {1} - {2} / {3} -> ".format(a, b, c, d)
                             + form.format(a, b, c, d))
    chance, apart = random.Random(1), set()
    for _ in range(8 if given else 0):
        point = {k: chance.randint(i.low, i.high) for k, i in path.inputs.items()
                 if i.node.rule is None}
        try:
            apart.add(computed(node, point, {}, True) - given[1](point))
        except (TypeError, ZeroDivisionError):      # no value there
            continue
    constant = digits(Fraction(apart.pop())) if len(apart) == 1 else None
    if constant:
        found += ["{0} - {1} -> {0} - {2} + {3};".format(atom(node), given[0], own, constant),
                  "%s ~ %s;" % (atom(node), own)]
    return found
