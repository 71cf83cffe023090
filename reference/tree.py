"""Boxes, cuts and the answer of a script: docs/FORMATS.md, "What is answered", "Boxes"."""

from __future__ import annotations

from typing import Dict, Iterator, List, Optional, Tuple, Union

from .facts import NONE, Value
from .grid import HIGH, LOW, Interval, hull, middle, part_down
from .saturate import base_facts, open_goal, settle
from .script import Script
from .universe import TooManyExpressions, Universe

Ranges = Dict[int, Interval]
Piece = Tuple[int, Interval]
Line = Union[Interval, str]


class Box:
    """ranges are those of the split variables; done counts unconditional cuts."""

    def __init__(self, path: Tuple[int, ...], ranges: Ranges, done: int, halvings: int,
                 piece: Optional[Piece], open_piece: Optional[Interval] = None) -> None:
        """A box that isn't cut and has no facts yet."""
        self.path, self.ranges, self.done = path, ranges, done
        self.halvings, self.piece = halvings, piece
        # The certificate's cut runs over the whole line, so its outer pieces
        # are unbounded; met with the parent's fact they say the same.
        self.open_piece = open_piece
        self.children = []
        self.cut = None
        self.open = None            # the least goal of an open leaf
        self.void = False           # whether VOID is known here
        self.goals = None           # the strongest known values of a leaf's goals
        self.steps = None           # with a trace: the steps made here,
        self.void_step = None       # the step of VOID,
        self.goal_steps = None      # and those of a leaf's goals


class Plan:
    """The cuts of one case."""

    def __init__(self, script: Script, depth: int) -> None:
        """The whole box has the split ranges."""
        self.script, self.depth = script, depth
        self.root = {v: script.split_range(v) for v in script.split_order}

    def root_box(self) -> Box:
        """The whole box."""
        return Box((), self.root, 0, 0, None)

    def forced(self, box: Box) -> Optional[Tuple[int, int, List[int]]]:
        """The next unconditional cut with a point: (number, variable, points) or None."""
        for k in range(box.done, len(self.script.cuts)):
            s = self.script.cuts[k]
            lo, hi = box.ranges[s.var]
            if s.points is None:
                wanted = [part_down(lo, hi, i, s.pieces) for i in range(1, s.pieces)]
            else:
                wanted = s.points
            points = []
            before = None
            for p in wanted:
                if lo < p < hi and (before is None or p > before):
                    points.append(p)
                before = p
            if points:
                return k, s.var, points
        return None

    def half(self, box: Box) -> Optional[Tuple[int, int]]:
        """The next halving: (variable, point), or None at the bottom."""
        if box.halvings >= self.depth:
            return None
        names = self.script.halves
        v = len(names)
        for k in range(v):
            var = names[(box.halvings + k) % v]
            m = middle(*box.ranges[var])
            if m is not None:
                return var, m
        return None

    def pieces(self, box: Box, var: int, points: List[int], done: int, halvings: int) -> List[Box]:
        """The boxes of a cut at these points."""
        lo, hi = box.ranges[var]
        ends = [lo] + points + [hi]
        line = [LOW] + points + [HIGH]
        out = []
        for k in range(len(points) + 1):
            piece = (ends[k], ends[k + 1])
            ranges = dict(box.ranges)
            ranges[var] = piece
            out.append(Box(box.path + (k,), ranges, done, halvings, (var, piece),
                           (line[k], line[k + 1])))
        return out


class Limit(Exception):
    """The answer Limit with its text."""


class Unproved(Exception):
    """case (from 0), plan, box, goal (from 0)."""


class Steps:
    """Counts the steps of a traced tree."""

    def __init__(self) -> None:
        """None is made yet."""
        self.next = 0


def grow(uni: Universe, script: Script, rounds: int, depth: int, left: int,
         steps: Optional[Steps] = None) -> Tuple[Plan, Box, int, Optional[Box]]:
    """One case's tree: its plan, its root, the number of boxes, and the first open box."""
    plan = Plan(script, depth)
    root = plan.root_box()
    count = 1
    first_open = None
    if count > left:
        raise Limit
    slots = [uni.slot_number[g.slot] for g in script.goals]
    todo = [(root, None)]
    while todo:
        box, parent = todo.pop()
        if parent is None:
            leaves = base_facts(uni, script)
        else:
            var, piece = box.piece
            leaves = [(102, 0, ("B", var), box.open_piece if steps else piece)]
        table = settle(uni, leaves, parent, rounds, steps.next if steps else None)
        if steps:
            steps.next += len(table.steps)
            box.steps, box.void_step = table.steps, table.void_step
            box.goal_steps = [table.places[n] for n in slots]
        box.goals = [table.values[n] for n in slots]
        box.void = table.void
        if box.void:
            continue
        forced = plan.forced(box)
        if forced:
            k, var, points = forced
            box.cut = (var, points)
            box.children = plan.pieces(box, var, points, k + 1, box.halvings)
        else:
            box.open = open_goal(uni, script.goals, table)
            if box.open is None:
                continue
            half = plan.half(box)
            if half is None:
                if first_open is None:
                    first_open = box
                continue
            box.open = None
            var, m = half
            box.cut = (var, [m])
            box.children = plan.pieces(box, var, [m], len(script.cuts), box.halvings + 1)
        count += len(box.children)
        if count > left:
            raise Limit
        for c in reversed(box.children):
            todo.append((c, table))
    return plan, root, count, first_open


def leaves_of(root: Box) -> Iterator[Box]:
    """The leaves in path order."""
    todo = [root]
    while todo:
        b = todo.pop()
        if b.children:
            todo.extend(reversed(b.children))
        else:
            yield b


class Answer:
    """An answer of status 0."""

    def __init__(self, uni: Universe, trees: List[Tuple[Script, Box]], boxes: int,
                 lines: List[Line]) -> None:
        """The trees of the cases, how many boxes they have, and the lines."""
        self.uni, self.trees, self.boxes, self.lines = uni, trees, boxes, lines


def answer(script: Script, rounds: int, depth: int, boxes: int, trace: bool = False) -> Answer:
    """The answer of a script; raises Limit or Unproved."""
    try:
        uni = Universe(script)
    except TooManyExpressions:
        raise Limit("limit: more than 1024 expressions")
    left = boxes
    trees = []
    unproved = None
    steps = Steps() if trace else None
    for i in range(script.cases()):
        case = script.case(i)
        try:
            plan, root, count, first_open = grow(uni, case, rounds, depth, left, steps)
        except Limit:
            raise Limit("limit: more than %d boxes" % boxes)
        left -= count
        if first_open is not None and unproved is None:
            unproved = (i, plan, first_open, first_open.open)
        trees.append((case, root))
    if unproved:
        raise Unproved(*unproved)
    lines = [Hull() for _ in script.goals]
    for case, root in trees:
        for leaf in leaves_of(root):
            if not leaf.void:
                for h, value in zip(lines, leaf.goals):
                    h.add(value)
    return Answer(uni, trees, boxes - left, [h.line() for h in lines])


class Hull:
    """Gathers the values of one goal over leaves."""

    def __init__(self) -> None:
        """No leaf is seen yet."""
        self.interval = None
        self.none = False

    def add(self, value: Value) -> None:
        """One leaf's value."""
        if value == NONE:
            self.none = True
        elif self.interval is None:
            self.interval = value
        else:
            self.interval = hull(self.interval, value)

    def line(self) -> Line:
        """An interval, "none" or "empty"."""
        if self.interval is not None:
            return self.interval
        return "none" if self.none else "empty"
