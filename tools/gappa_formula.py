"""A formula of Gappa as hypothesis parts and goals, the form that `fixprove` reads.

`Formula(script)` takes a `gappa_script.Gappa`. `parts` is a list of parts, each a list of
conjunctions of texts; `goals` a list of Goals. What can't be said so is a Word in `unserved`.
`as_it_is` says that the text between the braces has that form already.
"""

from collections import namedtuple

from gappa_script import Atom, Join
from gappa_text import Word

# a goal: `says` is its expression as it is written, `ask` whether an interval is asked for
Goal = namedtuple("Goal", "text says ask node")
CASES, PROPOSITIONS = 64, 128


class Missing(Exception):
    """A construct that has no form here, as a Word."""


class Formula:
    """The parts and goals of a script's formula."""

    def __init__(self, script):
        self.script, self.unserved = script, []
        self.equalities = []    # (left, right, byte) of each equality that is assumed
        self.parts, self.goals, self.as_it_is = [], [], not script.parentheses
        at = script.formula
        while isinstance(at, Join) and at.kind == "imp":
            self.assume(at.parts[0])
            at = at.parts[1]
        self.goal(at)
        if not self.goals and not self.unserved:
            # a formula that is proved by contradiction alone
            self.goals = [Goal("0 in [1,1]", "0", False, None)]
        self.limits()

    # ---- texts

    def text(self, span):
        """The text of a pair of token numbers, edited."""
        tokens = self.script.tokens
        return self.script.edited(tokens[span[0]].start, tokens[span[1] - 1].end)

    def inside(self, span):
        """The same, in parentheses if it is a sum or more."""
        shown = self.text(span)
        return shown if span[1] - span[0] == 1 else "(%s)" % shown

    # ---- hypotheses

    def assume(self, formula):
        """Adds a formula to the hypotheses, conjunct by conjunct."""
        self.as_it_is = self.as_it_is and plain_part(formula)
        together = []
        for conjunct in conjuncts(formula):
            try:
                choices = self.choices(conjunct, False)
            except Missing as fault:
                self.unserved.append(fault.args[0])
                continue
            if len(choices) == 1:
                together += choices[0]
            else:
                self.parts.append(choices)
        if together:
            self.parts.append([together])

    def choices(self, formula, negated):
        """The conjunctions of which one is to hold, for a formula or its negation."""
        if isinstance(formula, Atom):
            return self.negation(formula) if negated else [[self.claim(formula)]]
        if formula.kind == "not":
            return self.choices(formula.parts[0], not negated)
        if formula.kind == "imp":
            found = [(formula.parts[0], True), (formula.parts[1], False)]
            kind = "or"
            if negated:
                found, kind = [(part, not no) for part, no in found], "and"
        else:
            found = [(part, negated) for part in formula.parts]
            kind = {"and": "or", "or": "and"}[formula.kind] if negated else formula.kind
        lists = [self.choices(part, no) for part, no in found]
        if kind == "or":
            return [one for some in lists for one in some]
        made = [[]]
        for some in lists:
            made = [one + other for one in made for other in some]
            if len(made) > CASES:
                raise Missing(Word(formula.start, "more than %d cases" % CASES,
                                   "write several scripts, each with some of the cases"))
        return made

    def negation(self, atom):
        """The conjunctions of which one holds where a proposition doesn't."""
        self.as_it_is = self.as_it_is and atom.kind in ("le", "ge")
        left = self.text(atom.spans[0])
        if atom.kind in ("le", "ge"):
            return [["not " + self.claim(atom)]]
        if atom.kind == "in":
            return [["not %s >= %s" % (left, self.text(atom.spans[1]))],
                    ["not %s <= %s" % (left, self.text(atom.spans[2]))]]
        if atom.kind == "eq":
            left = "%s - %s" % (left, self.inside(atom.spans[1]))
            return [["not %s >= 0" % left], ["not %s <= 0" % left]]
        if atom.kind == "ne":
            return [["%s - %s in [0,0]" % (left, self.inside(atom.spans[1]))]]
        raise Missing(Word(atom.start, "not before this proposition",
                           "not stands before e <= b and e >= b; assume bounds instead"))

    def claim(self, atom):
        """A proposition that is assumed, as text."""
        left = self.text(atom.spans[0])
        if atom.kind == "eq":
            right = self.inside(atom.spans[1])
            self.as_it_is = False
            self.equalities.append((left, right, atom.start))
            return "%s - %s in [0,0]" % (left, right)
        if atom.kind == "relabs":
            self.as_it_is = False
            return self.relative(atom)
        if atom.kind == "flt":
            raise Missing(Word(atom.start, "@FLT", "say by @FIX(e,k) of which power of two e is "
                               "a multiple, and by |e| <= b how large it is"))
        if atom.kind == "ne":
            raise Missing(Word(atom.start, "<> in a hypothesis",
                               "bound the value away from 0, as |e| >= 1b-60"))
        if atom.kind in ("ask", "relask"):
            raise Missing(Word(atom.start, "? in a hypothesis", "? stands in goals alone"))
        return self.script.edited(atom.start, atom.end)

    def relative(self, atom):
        """|a -/ b| <= n as a range."""
        bound = self.text(atom.spans[2])
        left, right = self.text(atom.spans[0]), self.text(atom.spans[1])
        return "%s -/ %s in [-%s,%s]" % (left, right, bound, bound)

    # ---- goals

    def goal(self, formula):
        """Takes the goals of a formula; what stands in the way of a plain one is assumed."""
        found = conjuncts(formula)
        for part in found:
            try:
                if isinstance(part, Atom):
                    self.goals.append(self.asked(part))
                elif len(found) > 1:
                    raise Missing(Word(part.start, "a goal that is no single proposition",
                                       "write a script of its own for it"))
                else:
                    self.as_it_is = False
                    self.only(part)
            except Missing as fault:
                self.unserved.append(fault.args[0])

    def only(self, formula):
        """A goal that stands alone and has connectives."""
        if formula.kind == "imp":
            self.assume(formula.parts[0])
            self.goal(formula.parts[1])
        elif formula.kind == "not":
            inner = formula.parts[0]
            if isinstance(inner, Join) and inner.kind == "not":
                self.goal(inner.parts[0])
            elif isinstance(inner, Join) and inner.kind == "and":
                self.alternatives([Join("not", (it,), it.start, it.end) for it in inner.parts])
            else:
                self.assume(inner)
        else:
            self.alternatives(list(formula.parts))

    def alternatives(self, parts):
        """A disjunction: all but one of its parts are denied as hypotheses."""
        asks = [part for part in parts if has_ask(part)]
        if len(asks) > 1:
            raise Missing(Word(asks[1].start, "two ? in a disjunction of goals",
                               "write a script for each"))
        kept = asks[0] if asks else parts[-1]
        for part in parts:
            if part is not kept:
                self.assume(Join("not", (part,), part.start, part.end))
        self.goal(kept)

    def asked(self, atom):
        """The goal that a proposition is."""
        says, node = self.text(atom.spans[0]), atom.left
        if atom.kind in ("rel", "relask", "relabs"):
            says, node = "%s -/ %s" % (says, self.text(atom.spans[1])), (atom.left, atom.right)
        if atom.kind in ("ask", "relask"):
            return Goal("%s in ?" % says, says, True, node)
        if atom.kind in ("le", "ge", "in", "rel"):
            return Goal(self.script.edited(atom.start, atom.end), says, False, node)
        self.as_it_is = False
        if atom.kind == "relabs":
            return Goal(self.relative(atom), says, False, node)
        if atom.kind == "eq":
            says = "%s - %s" % (says, self.inside(atom.spans[1]))
            return Goal("%s in [0,0]" % says, says, False, None)
        if atom.kind == "fix":
            says = "fixed<%d,dn>(%s) - %s" % (atom.lower, says, self.inside(atom.spans[0]))
            return Goal("%s in [0,0]" % says, says, False, None)
        if atom.kind == "flt":
            raise Missing(Word(atom.start, "@FLT", "ask by fixed<k,dn>(e) - e in [0,0] whether e "
                               "is a multiple of 2^k, and for its bounds"))
        raise Missing(Word(atom.start, "<> in a goal",
                           "ask for a bound that shows it, as |e| >= 1b-60"))

    # ---- limits

    def limits(self):
        """Tells where there are more cases or propositions than `fixprove` takes."""
        cases, count = 1, len(self.goals)
        for part in self.parts:
            cases *= len(part)
            count += sum(len(some) for some in part)
        if cases > CASES:
            self.unserved.append(Word(self.script.open.start, "a formula with %d cases" % cases,
                                      "at most %d: write several scripts" % CASES))
        if count > PROPOSITIONS:
            self.unserved.append(Word(self.script.open.start, "%d propositions" % count,
                                      "at most %d: write several scripts" % PROPOSITIONS))

    def written(self):
        """The formula's text, braces included."""
        parts = [" \\/ ".join(" /\\ ".join(some) for some in part) for part in self.parts]
        parts.append(" /\\ ".join(goal.text for goal in self.goals))
        return "{ %s }" % "\n  -> ".join(parts)


def conjuncts(formula):
    """The parts of a conjunction, or the formula alone."""
    if isinstance(formula, Join) and formula.kind == "and":
        return [one for part in formula.parts for one in conjuncts(part)]
    return [formula]


def has_ask(formula):
    """Whether a ? stands in a formula."""
    if isinstance(formula, Atom):
        return formula.kind in ("ask", "relask")
    return any(has_ask(part) for part in formula.parts)


def plain_part(formula):
    """Whether a part is conjunctions with \\/ between, `not` before bounds alone."""
    some = formula.parts if isinstance(formula, Join) and formula.kind == "or" else (formula,)
    for one in some:
        for claim in one.parts if isinstance(one, Join) and one.kind == "and" else (one,):
            if isinstance(claim, Join) and claim.kind == "not":
                claim = claim.parts[0]
                if not isinstance(claim, Atom) or claim.kind not in ("le", "ge"):
                    return False
            if not isinstance(claim, Atom):
                return False
    return True
