"""Which certificates are accepted, and their lines: docs/FORMATS.md, "Certificates"."""
from types import SimpleNamespace

from .certificate import Fault, Reader
from .grid import INF, WHOLE, finite, inside, show
from .hints import is_checked
from .rules import NONE, VOID, conclude, meeting, stronger
from .script import parts_of


class Judge:
    """Takes the items in their order; raises Fault at the first that isn't accepted.

    An open section has the numbers of its `steps`, its `piece` of the cut around it as a fact, and
    the `pieces` of its own cut that are still to come.
    """

    def __init__(self, script):
        self.script, self.nodes, self.cases, self.judged = script, [], None, 0
        self.marks = [0 if is_checked(script.nodes, a, b) else 1 for a, b, _, _ in script.hints]
        self.open, self.known, self.steps, self.section, self.hypotheses = [], {}, 0, -1, None
        self.hulls = ["empty" for _ in script.goals]

    def need(self, truth, fault, *numbers):
        """Raises the fault with its numbers if the truth doesn't hold."""
        if not truth:
            raise Fault(" ".join(map(str, (fault,) + numbers)))

    def take(self, kind, *parts):
        """Judges one item, in the section that it stands in."""
        if kind[:4] not in ("node", "mark"):
            if self.cases is None:
                many, self.cases = parts[0] if kind == "cases" else 1, iter(self.script.cases)
                self.need(many == len(self.script.cases), "BadCases", many)
            if kind == "cases":
                return
            self.hypotheses = self.hypotheses if self.open else next(self.cases)
            if not self.open or self.open[-1].pieces:
                piece = self.open[-1].pieces.pop(0) if self.open else None
                self.open.append(SimpleNamespace(steps=[], piece=piece, pieces=[]))
                self.section += 1
        getattr(self, "take_" + kind)(*parts)

    def take_nodes(self, many):
        """How many nodes there are."""
        self.need(many >= len(self.script.nodes), "WrongScript", many)

    def take_node(self, node):
        """A node: first those of the script, and then others."""
        n, own = len(self.nodes), self.script.nodes
        if n < len(own):
            self.need(node == own[n], "WrongScript", n)
        self.need(n < 1024 and node not in self.nodes and all(k < n for k in parts_of(node)) and (
            node[0] != "var" or node[1] < len(self.script.names)), "BadNode", n)
        self.nodes.append(node)

    def take_marks(self, many):
        """How many marks there are."""
        self.need(many == len(self.marks), "HintMark", min(many, len(self.marks)) + 1)

    def take_mark(self, mark):
        """A hint's mark."""
        self.judged += 1
        self.need(mark == self.marks[self.judged - 1], "HintMark", self.judged)

    def take_step(self, rule, arg, fact, met, cited):
        """A step: what its rule gives, met with the fact that it is met with, has to show it."""
        premises, other = [self.known.get(n) for n in cited], self.known.get(met)
        self.need(None not in premises and (met is None or other), "BadPremise", self.steps)
        self.need(other is None or VOID in (fact, other) or fact[0] == other[0],
                  "BadPremise", self.steps)
        found = None
        if all(n < len(self.nodes) for n in fact[0][1:]):
            slot = other[0] if other and fact == VOID else fact[0]
            if rule in (100, 101, 102) and not cited:
                found = self.given(rule, arg, slot)
            else:
                found = conclude(self.nodes, self.script.hints, rule, arg, premises, slot)
        found = meeting(found, other) if found and other else found
        self.need(found and stronger(found, fact), "BadStep", self.steps)
        self.known[self.steps] = fact
        self.open[-1].steps.append(self.steps)
        self.steps += 1

    def given(self, rule, arg, slot):
        """What the rules 100, 101 and 102 give, or None."""
        if rule == 100:
            return self.hypotheses[arg] if arg < len(self.hypotheses) else None
        if rule == 102 or arg:
            return None if arg else self.open[-1].piece
        return next(((("BND", n), WHOLE) for n in slot[1:] if self.nodes[n][0] == "var"), None)

    def take_cut(self, n, points):
        """A cut: a section follows for each piece."""
        self.need(n < len(self.nodes) and self.nodes[n][0] == "var" and len(self.open) <= 64,
                  "BadCut", self.section)
        ends = [-INF] + points + [INF]
        self.open[-1].pieces = [(("BND", n), piece) for piece in zip(ends, ends[1:])]

    def take_leaf(self, cited):
        """A leaf: each goal's step has to settle it."""
        for g, (slot, want, _) in enumerate(self.script.goals):
            fact = self.known.get(cited[g]) if g < len(cited) else None
            self.need(fact and fact[0] == slot and (fact[1] == NONE or (
                finite(fact[1]) if want == "?" else want and inside(fact[1], want))),
                "GoalMissing", self.section, g + 1)
        self.need(len(cited) == len(self.hulls), "GoalMissing", self.section, len(self.hulls) + 1)
        for g, value in enumerate(self.known[n][1] for n in cited):
            old = self.hulls[g]
            self.hulls[g] = value if old in ("empty", NONE) else old if value == NONE else (
                min(old[0], value[0]), max(old[1], value[1]))
        self.leave()

    def take_dead(self, cited):
        """A dead end: its step has to be VOID."""
        self.need(self.known.get(cited[0]) == VOID, "GoalMissing", self.section, 0)
        self.leave()

    def leave(self):
        """Closes the section, and each around it that has no piece left."""
        while self.open and not self.open[-1].pieces:
            for n in self.open.pop().steps:
                del self.known[n]

    def lines(self):
        """The lines that the items showed."""
        shown = [i if isinstance(i, str) else "[%s, %s]" % tuple(map(show, i)) for i in self.hulls]
        lines = ["%s in %s" % (goal[2], i) for goal, i in zip(self.script.goals, shown)]
        lines += ["hint %d assumed" % (k + 1) for k, mark in enumerate(self.marks) if mark]
        return "".join(line + "\n" for line in lines)


def lines_of(script, data):
    """The lines that a certificate's bytes show of the script; raises Fault."""
    judge = Judge(script)
    for item in Reader(data).items():
        judge.take(*item)
    return judge.lines()
