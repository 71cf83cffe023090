"""Whole numbers as expressions: what a path of a routine computes, over its inputs.

A node is a number in a register. In the twin, with exact arithmetic, shifts and quotients round
nothing.
"""

import sys
from collections import namedtuple
from fractions import Fraction

from c_types import COMPARES, INT, span

sys.setrecursionlimit(20000)
# a condition between two nodes, by a sign of COMPARES, and where it stands
Cond = namedtuple("Cond", "left way right where")
# a proposition that has to hold: a node's bounds, where and why; `sub` are the conditions of the
# branch within the path in which it stands, as a Branch
Goal = namedtuple("Goal", "node ends where what branch")
Input = namedtuple("Input", "node low high kind")
# the ways in which a comparison goes if it is true, and if it is false
WAYS = {"<": (("<",), (">=",)), ">": ((">",), ("<=",)), "<=": (("<=",), (">",)),
        ">=": ((">=",), ("<",)), "==": (("==",), ("<", ">")), "!=": (("<", ">"), ("==",))}
TURNED = {"<": ">", ">": "<", "<=": ">=", ">=": "<=", "==": "==", "!=": "!="}


class Branch:
    """One way through a part of a path whose ways are joined: its conditions, within another
    branch or none (None: the path itself). With `whole`, the conditions that held at some place,
    and none that the path met later."""

    def __init__(self, outer=None, whole=None):
        self.outer, self.conds, self.whole = outer, whole or [], whole is not None

    def all(self):
        """Its conditions with those of the branches that it stands in."""
        return (self.outer.all() if self.outer else []) + self.conds

    def within(self, other):
        """Whether it is `other`, or stands in it."""
        return other is None or self is other or self.outer is not None and \
            self.outer.within(other)


def asked_in(goal):
    """The branch in whose conditions a goal is asked, None of those of its path alone. A branch
    that is whole has its own, also if these are none: not what the path met later."""
    branch = goal.branch
    return branch if branch is not None and (branch.whole or branch.all()) else None


def quotient(a, b):
    """The quotient rounded toward 0; None for a divisor 0."""
    return None if b == 0 else abs(a) // abs(b) * (1 if (a < 0) == (b < 0) else -1)


def shifted(a, k, way):
    return a << -k if k <= 0 else a + ((1 << k - 1) if way == "nu" else 0) >> k


OPS = {"add": lambda a, b: a + b, "sub": lambda a, b: a - b, "mul": lambda a, b: a * b,
       "low": lambda a, k: a & (1 << k) - 1, "shift": shifted, "div": quotient}


class Node:
    """A whole number: lit, var, add, sub, mul, div (toward 0), shift (a * 2^-k, rounded `dn` or
    `nu`; to the left if k < 0), low (a mod 2^k). A var is an input, or a word of which scripts know
    only a range: then `rule` says what it is, ("table", entries, index's node), ("rest", a, b) of
    a % b, or ("join", [(conditions, node)]) of branches that only set a value."""

    def __init__(self, op, *args, name=None, coord=None, text="", rule=None):
        self.op, self.args, self.name, self.coord, self.text = op, args, name, coord, text
        self.made = True        # its name isn't one of the C's
        self.split = False      # a shift whose lost bits a `low` takes: it rounds nothing away
        self.rule = rule
        self.branch = None
        self._rounds = None

    def inner(self):
        """The nodes in its text."""
        return [a for a in self.args if isinstance(a, Node)]

    def feeds(self):
        """The nodes by which its value is computed."""
        if self.rule is None:
            return self.inner()
        if self.rule[0] == "join":
            return [n for conds, node in self.rule[1]
                    for n in [node] + [x for c in conds for x in (c.left, c.right)]]
        return [a for a in self.rule[1:] if isinstance(a, Node)]

    @property
    def rounds(self):
        """Whether the twin is another number."""
        if self._rounds is None:
            here = self.op == "div" or self.op == "shift" and self.args[1] > 0
            some = [n for _, n in self.rule[1]] if self.rule and self.rule[0] == "join" else \
                self.inner()
            self._rounds = self.op != "low" and not self.split and (
                here or any(a.rounds for a in some))
        return self._rounds

    @property
    def const(self):
        return self.args[0] if self.op == "lit" else None

    def operand(self):
        """Its name, or its number in parentheses."""
        return self.name or "(%d)" % self.const


def lit(number):
    return Node("lit", number)


def same(x, y):
    """Whether two operands are one."""
    if x is y:
        return True
    if isinstance(x, Node) and isinstance(y, Node):
        return x.op == y.op == "lit" and x.const == y.const
    return not isinstance(x, Node) and not isinstance(y, Node) and x == y


class Value:
    """A value of C: its node and its type (width, signed)."""

    def __init__(self, node, kind):
        self.node, self.kind = node, kind

    def promoted(self):
        return Value(self.node, INT) if self.kind[0] < 32 else self


def bounds(way, c):
    """What `x way c` says of a whole number x, as a pair of ends."""
    return {"<": (None, c - 1), ">": (c + 1, None), "<=": (None, c), ">=": (c, None),
            "==": (c, c)}[way]


# ---- values

def computed(root, env, memo, twin=False):
    """A node's exact value at {input: number}; None without one. Of the twin, a fraction. `memo` is
    kept between calls at one point."""
    twin = twin and root.rounds
    if (id(root), twin) not in memo:
        memo[id(root), twin] = of_node(root, env, memo, twin)
    return memo[id(root), twin]


def of_node(n, env, memo, twin):
    if n.op == "lit":
        return n.args[0]
    if n.op == "var":
        return env.get(n.text) if n.rule is None else of_rule(n.rule, env, memo, twin)
    a = [computed(x, env, memo, twin) if isinstance(x, Node) else x for x in n.args]
    if None in a:
        return None
    if twin and n.op == "shift":
        return a[0] * Fraction(2) ** -a[1]
    if twin and n.op == "div":
        return Fraction(a[0]) / a[1] if a[1] else None
    return OPS[n.op](*a)


def of_rule(rule, env, memo, twin):
    if rule[0] == "join":
        for conds, node in rule[1]:
            if holds(conds, env, memo):
                return computed(node, env, memo, twin)
        return None
    if rule[0] == "table":
        at = computed(rule[2], env, memo)
        return rule[1][at] if at is not None and 0 <= at < len(rule[1]) else None
    a, b = computed(rule[1], env, memo), rule[2]
    return None if a is None else a - b * quotient(a, b)


def holds(conds, env, memo):
    """Whether conditions are true at a point."""
    for c in conds:
        a, b = computed(c.left, env, memo), computed(c.right, env, memo)
        if a is None or b is None or not COMPARES[c.way](a, b):
            return False
    return True


# ---- forms

def linear(node, through=False):
    """A node as a sum of multiples: {text: factor}, the constant, and how many multiples were met.
    With `through` a shift is its operand and its error."""
    if node.op == "lit":
        return {}, Fraction(node.const), 0
    if node.op in ("add", "sub"):
        (p, c, m), (q, d, n) = linear(node.args[0], through), linear(node.args[1], through)
        sign = 1 if node.op == "add" else -1
        found = {k: p.get(k, 0) + sign * q.get(k, 0) for k in list(p) + list(q)}
        return {k: f for k, f in found.items() if f}, c + sign * d, m + n
    inner, by, more = None, 0, {}
    if node.op == "shift" and (node.args[1] <= 0 or through):
        inner, by = node.args[0], Fraction(2) ** -node.args[1]
        if node.args[1] > 0:
            error = "(%s - %s * 1b-%d)" % (node.operand(), inner.operand(), node.args[1])
            more = {error: Fraction(1)}
    elif node.op == "mul" and "lit" in (node.args[0].op, node.args[1].op):
        inner, by = node.args if node.args[1].op == "lit" else node.args[::-1]
        by = by.const
    if not by:
        return {node.operand(): Fraction(1)}, Fraction(0), 1
    p, c, m = linear(inner, through)
    return dict({k: by * f for k, f in p.items()}, **more), by * c, m


def weights(x, y):
    """(u, a, v, b, c) if x + y is u * a + v * b and u + v is the constant c; else nothing."""
    if not x.op == y.op == "mul":
        return None
    for u, a in (x.args, x.args[::-1]):
        for v, b in (y.args, y.args[::-1]):
            (p, c, _), (q, d, _) = linear(u), linear(v)
            if p and {k: -f for k, f in p.items()} == q:
                return u, a, v, b, int(c + d)
    return None


def interpolation(x, y):
    """(b, t, k) if x + y is x + ((b - x) * t >> k); else nothing."""
    if y.op == "shift" and y.args[1] > 0 and y.args[0].op == "mul":
        for p, t in (y.args[0].args, y.args[0].args[::-1]):
            if p.op == "sub" and p.args[1] is x:
                return p.args[0], t, y.args[1]
    return None


def zeros(node):
    """How many low bits of a number are 0, as its form shows; 64 of 0 itself."""
    if node.op == "lit":
        return 64 if node.const == 0 else (node.const & -node.const).bit_length() - 1
    if node.op in ("add", "sub"):
        if node.op == "sub" and node.args[1].op == "low" and node.args[1].args[0] is node.args[0]:
            return node.args[1].args[1]
        return min(zeros(node.args[0]), zeros(node.args[1]))
    if node.op == "mul":
        return min(64, zeros(node.args[0]) + zeros(node.args[1]))
    if node.op == "shift" and node.args[1] <= 0:
        return min(64, zeros(node.args[0]) - node.args[1])
    if node.rule is not None and node.rule[0] == "join":
        return min(zeros(n) for _, n in node.rule[1])
    return 0


def intervals(op, one, other, more):
    """The ends of what an operation makes of numbers in two ranges (or of one, and `more`)."""
    (a, b), (c, d) = one, other
    if op == "shift":
        return [shifted(x, *more) for x in (a, b)]
    if op == "low":
        return [a, b] if 0 <= a and b < 1 << more[0] else [0, (1 << more[0]) - 1]
    if op == "div":
        if c <= 0 <= d:
            return [a, b, -a, -b]
        return [quotient(x, y) for x in (a, b) for y in (c, d)] + [0] * (a <= 0 <= b)
    if op == "mul":
        return [x * y for x in (a, b) for y in (c, d)]
    return [a - d, b - c] if op == "sub" else [a + c, b + d]


def clamped(ends, kind):
    """A range's ends within a type, or the type's where none is left."""
    low, high = max(min(ends), span(kind)[0]), min(max(ends), span(kind)[1])
    return (low, high) if low <= high else span(kind)
