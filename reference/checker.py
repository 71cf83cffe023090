"""Which certificates are accepted, and the lines that they show.

docs/FORMATS.md, "Certificates": the second table of faults, and what follows it.
"""

from __future__ import annotations

from typing import Optional, Sequence, Tuple

from .certificate import Item, Reader
from .dag import Node
from .facts import VOID, Fact, meet, stronger
from .grid import HIGH, LOW, WHOLE, Interval
from .polynomial import classify, rows
from .rules import conclude
from .saturate import goal_settled
from .script import Script
from .tree import Hull


class CheckFault(Exception):
    """The first fault of the items: "Certificates", the second table of faults."""

    def __init__(self, kind: str, *numbers: int) -> None:
        """The fault's kind and its numbers."""
        Exception.__init__(self, kind, *numbers)
        self.kind, self.numbers = kind, numbers


class Section:
    """An open section: its steps, and the pieces of its cut that are still to come."""

    def __init__(self, number: int, depth: int, piece: Optional[Tuple[int, Interval]]) -> None:
        """Its number, how many cuts it lies in, and its piece of the last."""
        self.number, self.depth, self.piece = number, depth, piece
        self.steps = []
        self.var = None
        self.pieces = None          # pieces of its cut that are still to come


class Chain:
    """Takes the items in reading order; raises the first CheckFault."""

    def __init__(self, script: Script) -> None:
        """Nothing is read yet."""
        self.script = script
        self.marks = classify(script)
        self.hints = rows(script)
        self.nodes = []
        self.index = {}
        self.node_count = 0
        self.mark_number = 0
        self.open = {}              # step number -> fact, of the open sections
        self.stack = []
        self.steps = self.sections = 0
        self.roots = 0              # root sections begun
        self.root_count = None
        self.case = None
        self.hulls = [Hull() for _ in script.goals]
        self.lines = None

    def take(self, item: Item) -> None:
        """Judges one item."""
        getattr(self, "take_" + item[0].lower())(*item[1:])

    # -- nodes and marks

    def take_nodes(self, n: int) -> None:
        """How many nodes there are: no fewer than the script has."""
        if n < len(self.script.dag):
            raise CheckFault("WrongScript", n)
        self.node_count = n

    def take_node(self, node: Node) -> None:
        """A node: one of the script's, or another that may follow."""
        k = len(self.nodes)
        own = self.script.dag
        if k < len(own):
            if own[k] != node:
                raise CheckFault("WrongScript", k)
        else:
            if node[0] == "var":
                bad = node[1] >= len(self.script.variables)
            elif node[0] == "lit":
                bad = False
            elif node[0] == "rnd":
                bad = node[3] >= k
            else:
                bad = any(i >= k for i in node[1:])
            if bad or node in self.index or k >= 1024:
                raise CheckFault("BadNode", k)
        self.index[node] = k
        self.nodes.append(node)

    def take_marks(self, n: int) -> None:
        """How many marks there are: one for each hint `->`."""
        if n != len(self.marks):
            raise CheckFault("HintMark", min(n, len(self.marks)) + 1)

    def take_mark(self, checked: bool) -> None:
        """The mark of the next hint."""
        k = self.mark_number
        if self.marks[k] != checked:
            raise CheckFault("HintMark", k + 1)
        self.mark_number += 1

    # -- sections

    def take_cases(self, n: int) -> None:
        """How many cases there are."""
        if n != self.script.cases():
            raise CheckFault("BadCases", n)
        self.root_count = n

    def section(self) -> Section:
        """The section that the item stands in; a new one begins where none waits."""
        if self.root_count is None:
            if self.script.cases() != 1:
                raise CheckFault("BadCases", 1)
            self.root_count = 1
        if not self.stack:
            self.case = self.script.case(self.roots)
            self.facts = self.case.facts()
            self.roots += 1
            self._begin(0, None)
        elif self.stack[-1].pieces is not None:
            up = self.stack[-1]
            self._begin(up.depth + 1, (up.var, up.pieces.pop(0)))
        return self.stack[-1]

    def _begin(self, depth: int, piece: Optional[Tuple[int, Interval]]) -> None:
        """Opens a section."""
        self.stack.append(Section(self.sections, depth, piece))
        self.sections += 1

    def _end(self) -> None:
        """Closes the section, and each cut whose last piece has ended."""
        while True:
            s = self.stack.pop()
            for k in s.steps:
                del self.open[k]
            if not self.stack or self.stack[-1].pieces:
                return

    def take_step(self, rule: int, arg: int, fact: Fact, with_: Optional[int],
                  premises: Sequence[int]) -> None:
        """A step: BadPremise by what it cites, BadStep by what its rule gives."""
        s = self.section()
        number = self.steps
        if any(p not in self.open for p in premises):
            raise CheckFault("BadPremise", number)
        other = None
        if with_ is not None:
            if with_ not in self.open:
                raise CheckFault("BadPremise", number)
            other = self.open[with_]
            if fact != VOID and other != VOID and other[0] != fact[0]:
                raise CheckFault("BadPremise", number)
        if not self.concluded(s, rule, arg, fact, other, premises):
            raise CheckFault("BadStep", number)
        self.open[number] = fact
        s.steps.append(number)
        self.steps += 1

    def concluded(self, s: Section, rule: int, arg: int, fact: Fact, other: Optional[Fact],
                  premises: Sequence[int]) -> bool:
        """Whether what the rule gives, met with the other fact, is as strong as the stated one."""
        if any(i >= len(self.nodes) for i in fact[0][1:]):
            return False
        target = fact[0]
        if fact == VOID and other is not None:
            target = other[0]
        if rule in (100, 101, 102):
            c = self.given(s, rule, arg, fact, premises)
        else:
            c = conclude(self.nodes, self.hints, rule, arg,
                         [self.open[p] for p in premises], target)
        if c is None:
            return False
        if other is not None:
            c = meet(c, other)
            if c is None:
                return False
        return stronger(c, fact)

    def given(self, s: Section, rule: int, arg: int, fact: Fact,
              premises: Sequence[int]) -> Optional[Fact]:
        """What the rules 100 to 102 give."""
        if premises:
            return None
        if rule == 100:
            return self.facts[arg] if arg < len(self.facts) else None
        if arg != 0:
            return None
        if rule == 101:
            for i in fact[0][1:]:
                if self.nodes[i][0] == "var":
                    return (("B", i), WHOLE)
            return None
        if s.piece is None:
            return None
        return (("B", s.piece[0]), s.piece[1])

    def take_cut(self, node: int, points: Sequence[int]) -> None:
        """A cut: a section for each piece follows."""
        s = self.section()
        if node >= len(self.nodes) or self.nodes[node][0] != "var" or s.depth >= 64:
            raise CheckFault("BadCut", s.number)
        ends = [LOW] + list(points) + [HIGH]
        s.var = node
        s.pieces = list(zip(ends, ends[1:]))

    def take_leaf(self, refs: Sequence[int]) -> None:
        """A leaf: each step that it names has to settle its goal."""
        s = self.section()
        goals = self.script.goals
        for k, (g, p) in enumerate(zip(goals, refs)):
            f = self.open.get(p)
            if f is None or f[0] != g.slot or not goal_settled(g, f[1]):
                raise CheckFault("GoalMissing", s.number, k + 1)
        if len(goals) != len(refs):
            raise CheckFault("GoalMissing", s.number, min(len(goals), len(refs)) + 1)
        for h, p in zip(self.hulls, refs):
            h.add(self.open[p][1])
        self._end()

    def take_dead(self, p: int) -> None:
        """A dead end: its step has to be VOID."""
        s = self.section()
        if self.open.get(p) != VOID:
            raise CheckFault("GoalMissing", s.number, 0)
        self._end()

    def take_end(self) -> None:
        """All items are accepted; the lines are the hulls."""
        self.lines = [h.line() for h in self.hulls]


def check(script: Script, reader: Reader) -> Chain:
    """The lines; raises CertFault or CheckFault, the first in reading order."""
    chain = Chain(script)
    while chain.lines is None:
        chain.take(reader.next())
    return chain
