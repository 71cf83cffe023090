"""Which rewriting hints are checked: docs/FORMATS.md, "What a script says", "Checked hints".

A polynomial is a dict from monomials to whole factors that aren't 0; a monomial is a sorted tuple
of pairs of an atom's node and its power. With its weight and its degree it is a triple. Both are
counted as it is made: what cancels out counts, too.
"""
from .script import below, worth


class TooLarge(Exception):
    """A polynomial passes a limit."""


def within(triple):
    """The polynomial's triple; raises TooLarge if it passes a limit."""
    terms, weight, degree = triple
    if weight >= 2 ** 127 or degree > 4096 or len(terms) > 256:
        raise TooLarge
    return triple


def constant(n):
    """A number as a polynomial."""
    return ({(): n} if n else {}, abs(n), 0)


def joined(p, q, sign):
    """p + q or p - q, by the sign 1 or -1."""
    terms = dict(p[0])
    for monomial, factor in q[0].items():
        terms[monomial] = terms.get(monomial, 0) + sign * factor
    return ({m: c for m, c in terms.items() if c}, p[1] + q[1], max(p[2], q[2]))


def times(p, q):
    """p * q; raises TooLarge if its weight or its degree passes a limit."""
    within(({}, p[1] * q[1], p[2] + q[2]))
    terms = {}
    for m, a in p[0].items():
        for n, b in q[0].items():
            powers = dict(m)
            for atom, power in n:
                powers[atom] = powers.get(atom, 0) + power
            key = tuple(sorted(powers.items()))
            terms[key] = terms.get(key, 0) + a * b
    return ({m: c for m, c in terms.items() if c}, p[1] * q[1], p[2] + q[2])


def quotient(nodes, root):
    """Numerator and denominator of a node; raises TooLarge."""
    made = {}
    # what stands inside an atom isn't looked at
    for n in sorted(below(nodes, root, stop=("abs", "rnd"))):
        kind, parts = nodes[n][0], [made.get(k) for k in nodes[n][1:]]
        if kind == "lit":
            value = worth(nodes[n][1:])
            pair = constant(value.numerator), constant(value.denominator)
        elif kind in ("var", "abs", "rnd"):
            pair = ({((n, 1),): 1}, 1, 1), constant(1)
        elif kind == "neg":
            pair = joined(constant(0), parts[0][0], -1), parts[0][1]
        else:
            (a, b), (c, d) = parts
            if kind == "mul":
                pair = times(a, c), times(b, d)
            elif kind == "div":
                pair = times(a, d), times(b, c)
            else:
                pair = joined(times(a, d), times(c, b), 1 if kind == "add" else -1), times(b, d)
        made[n] = within(pair[0]), within(pair[1])
    return made[root]


def is_checked(nodes, left, right):
    """Whether both sides of a hint are equal as rational functions, within the limits."""
    try:
        (a, b), (c, d) = quotient(nodes, left), quotient(nodes, right)
        return within(times(a, d))[0] == within(times(c, b))[0]
    except TooLarge:
        return False
