"""Normal forms of hints: docs/FORMATS.md, "What a script says", "Checked hints".

A polynomial's terms are a dict from a monomial to its coefficient, which isn't 0. A monomial is a
sorted tuple of pairs of an atom and its power. An expression's form is a pair of polynomials, the
numerator and the denominator, each with its weight and its degree.
"""

from __future__ import annotations

from typing import Dict, List, Tuple

from . import literal
from .dag import Dag, divisors
from .rules import HintRow
from .script import Script

Terms = Dict[Tuple[Tuple[int, int], ...], int]

WEIGHT_LIMIT = 1 << 127
DEGREE_LIMIT = 4096
TERM_LIMIT = 256


class TooLarge(Exception):
    """A polynomial passes a limit."""


class Poly:
    """A polynomial with the weight and degree of the recursion that made it."""

    def __init__(self, terms: Terms, weight: int, degree: int) -> None:
        """Terms, weight and degree."""
        self.terms, self.weight, self.degree = terms, weight, degree


def _judge(p: Poly) -> Poly:
    """The polynomial; raises TooLarge if it passes a limit."""
    if p.weight >= WEIGHT_LIMIT or p.degree > DEGREE_LIMIT or len(p.terms) > TERM_LIMIT:
        raise TooLarge
    return p


def _join(terms: Terms) -> Terms:
    """The terms whose coefficients aren't 0."""
    return {m: c for m, c in terms.items() if c}


def _times(p: Poly, q: Poly) -> Poly:
    """p * q."""
    # An over-large weight or degree makes the outcome TooLarge in any case.
    weight, degree = p.weight * q.weight, p.degree + q.degree
    if weight >= WEIGHT_LIMIT or degree > DEGREE_LIMIT:
        raise TooLarge
    terms = {}
    for m, a in p.terms.items():
        for n, b in q.terms.items():
            powers = dict(m)
            for atom, k in n:
                powers[atom] = powers.get(atom, 0) + k
            key = tuple(sorted(powers.items()))
            terms[key] = terms.get(key, 0) + a * b
    return Poly(_join(terms), weight, degree)


def _plus(p: Poly, q: Poly, sign: int) -> Poly:
    """p + q or p - q, by the sign 1 or -1."""
    terms = dict(p.terms)
    for m, c in q.terms.items():
        terms[m] = terms.get(m, 0) + sign * c
    return Poly(_join(terms), p.weight + q.weight, max(p.degree, q.degree))


def _constant(n: int) -> Poly:
    """A number as a polynomial."""
    return Poly({(): n} if n else {}, abs(n), 0)


def form(dag: Dag, root: int) -> Tuple[Poly, Poly]:
    """The pair (N, D) of an expression; raises TooLarge."""
    memo = {}
    todo = [root]
    while todo:
        i = todo[-1]
        if i in memo:
            todo.pop()
            continue
        node = dag[i]
        tag = node[0]
        if tag in ("var", "abs", "rnd"):
            memo[i] = (Poly({((i, 1),): 1}, 1, 1), _constant(1))
            continue
        if tag == "lit":
            q = literal.value(node[1:])
            memo[i] = (_judge(_constant(q.numerator)), _judge(_constant(q.denominator)))
            continue
        waiting = [c for c in node[1:] if c not in memo]
        if waiting:
            todo.extend(waiting)
            continue
        if tag == "neg":
            n, d = memo[node[1]]
            r = (Poly({m: -c for m, c in n.terms.items()}, n.weight, n.degree), d)
        else:
            n1, d1 = memo[node[1]]
            n2, d2 = memo[node[2]]
            if tag in ("add", "sub"):
                sign = 1 if tag == "add" else -1
                r = (_plus(_times(n1, d2), _times(n2, d1), sign), _times(d1, d2))
            elif tag == "mul":
                r = (_times(n1, n2), _times(d1, d2))
            else:
                r = (_times(n1, d2), _times(d1, n2))
        memo[i] = (_judge(r[0]), _judge(r[1]))
    return memo[root]


def same(dag: Dag, a: int, b: int) -> str:
    """"Same", "Differs" or "TooLarge"."""
    try:
        na, da = form(dag, a)
        nb, db = form(dag, b)
        left = _judge(_times(na, db))
        right = _judge(_times(nb, da))
    except TooLarge:
        return "TooLarge"
    return "Same" if left.terms == right.terms else "Differs"


def classify(script: Script) -> List[bool]:
    """One mark per `->` hint: True where it is Checked, False where Assumed."""
    return [same(script.dag, h.left, h.right) == "Same" for h in script.hints]


def rows(script: Script) -> List[HintRow]:
    """The rows of rule 80, one for each `->` hint."""
    return [HintRow(h.left, h.right, divisors(script.dag, h.left), h.needs)
            for h in script.hints]
