"""What a certificate shows: its boxes, and the intervals of the goals in each.

The bytes are read by docs/FORMATS.md, in either version. `read` stops if the boxes don't give the
lines that the program's `check` printed.
"""

from collections import namedtuple
from fractions import Fraction

import assistants as shared

# a box that isn't cut further: its case from 1, the ranges of the variables that were cut ({number:
# (low, high)}, None for an end that isn't known), how many cuts deep it lies, and the intervals of
# its goals: pairs (None: infinite) or "none"; None for a box without any assignment
Box = namedtuple("Box", "case ranges depth goals")
# a certificate: its version, its boxes, cut variables by number (those with most cuts first), cases
Shown = namedtuple("Shown", "version boxes cuts cases")


class Reader:
    """The bytes of a certificate of either version, by docs/FORMATS.md."""

    def __init__(self, data):
        self.data, self.at, self.steps, self.sections = data, 0, [], 0
        if data[:4] != b"FXPC" or data[4] not in (1, 2):
            raise shared.Fault("the certificate is of no version that is known")
        self.version, self.at = data[4], 5
        self.nodes = [self.node() for _ in range(self.number(2))]
        for _ in range(self.number(2)):
            self.byte()
        cases = 1
        if self.data[self.at] == 5:
            self.byte()
            cases = self.byte()
        self.roots = [self.section() for _ in range(cases)]

    def byte(self):
        self.at += 1
        return self.data[self.at - 1]

    def number(self, size):
        """A count, a node, a variable, an argument or a literal's number."""
        if self.version == 1:
            self.at += size
            return int.from_bytes(self.data[self.at - size:self.at], "big")
        found = shift = 0
        while True:
            byte = self.byte()
            found |= (byte & 127) << shift
            shift += 7
            if byte < 128:
                return found

    def signed(self, size):
        found = self.number(size)
        if self.version == 2:
            return -(found + 1) // 2 if found % 2 else found // 2
        return found - (1 << 8 * size) if found >> (8 * size - 1) else found

    def step(self):
        """The number of a step."""
        found = self.number(8)
        return found if self.version == 1 else (len(self.steps) - found) % (1 << 64)

    def node(self):
        tag = self.byte()
        if tag == 0:
            return "var", self.number(2)
        if tag == 1:
            return "lit", self.number(16), self.signed(2), self.signed(2)
        if tag in (2, 7):
            return tag, self.number(2)
        if tag == 8:
            return tag, self.byte(), self.signed(2), self.number(2)
        return tag, self.number(2), self.number(2)

    def end(self):
        if self.byte():
            return None
        return self.point()

    def point(self):
        mantissa = self.signed(8)
        return mantissa * Fraction(2) ** self.signed(2)

    def fact(self):
        """The interval that a fact states of a value or a relative error; None for other facts."""
        tag = self.byte()
        if tag in (1, 2):
            self.number(2)
            found = self.end(), self.end()
            return found if tag == 1 else None
        if tag == 3:
            self.number(2)
            self.number(2)
            return "none" if self.byte() else (self.end(), self.end())
        if tag in (4, 5):
            self.number(2)
            if tag == 4:
                self.signed(2)
        return None

    def section(self):
        """A tree: ("cut", variable, points, pieces), ("leaf", the intervals) or ("dead",)."""
        self.sections += 1
        while True:
            tag = self.byte()
            if tag == 1:
                self.byte()
                self.number(2)
                fact = self.fact()
                if self.byte():
                    self.step()
                for _ in range(self.number(2)):
                    self.step()
                self.steps.append(fact)
            elif tag == 2:
                node = self.number(2)
                points = [self.point() for _ in range(self.number(1))]
                pieces = [self.section() for _ in range(len(points) + 1)]
                return "cut", self.nodes[node][1], points, pieces
            elif tag == 3:
                return "leaf", [self.steps[self.step()] for _ in range(self.number(2))]
            else:
                self.step()
                return ("dead",)


def boxes_of(tree, case, ranges, depth, found, cuts):
    """Adds the boxes of a tree to `found`, and how often each variable is cut to `cuts`."""
    if tree[0] != "cut":
        found.append(Box(case, ranges, depth, tree[1] if tree[0] == "leaf" else None))
        return
    _, variable, points, pieces = tree
    cuts[variable] = cuts.get(variable, 0) + len(points)
    low, high = ranges.get(variable, (None, None))
    ends = [low] + points + [high]
    for k, piece in enumerate(pieces):
        inside = dict(ranges)
        inside[variable] = ends[k], ends[k + 1]
        boxes_of(piece, case, inside, depth + 1, found, cuts)


def first_ranges(script, case):
    """The split range of each variable in a case, by number."""
    number, found, some = case - 1, {}, []
    for part in reversed(script.parts):
        number, place = divmod(number, len(part))
        some = part[place] + some
    places = {node: k for k, node in enumerate(script.variables.values())}
    for claim in some:
        if claim.kind == "in" and claim.left in places:
            found.setdefault(places[claim.left], (claim.lower, claim.upper))
    return found


def read(script, data, answer):
    """What the bytes of a certificate show of a script; `answer` is what `check` printed of both. A
    Fault where the two don't agree."""
    try:
        reader = Reader(data)
    except IndexError:
        raise shared.Fault("the certificate ends too early")
    boxes, cuts = [], {}
    for case, root in enumerate(reader.roots, 1):
        boxes_of(root, case, first_ranges(script, case), 0, boxes, cuts)
    for number, line in enumerate(answer.intervals):
        found = [box.goals[number] for box in boxes
                 if box.goals and isinstance(box.goals[number], tuple)]
        if isinstance(line, tuple) and found:
            low = None if any(i[0] is None for i in found) else min(i[0] for i in found)
            high = None if any(i[1] is None for i in found) else max(i[1] for i in found)
            if (low, high) != line:
                raise shared.Fault("goal %d: the boxes give another interval than check's line"
                                   % (number + 1))
    order = sorted(cuts, key=lambda variable: (-cuts[variable], variable))
    return Shown(reader.version, boxes, order, len(reader.roots))


def most(interval):
    """The greatest absolute value of an interval, as far as it is finite; 0 for no interval."""
    if not isinstance(interval, tuple):
        return Fraction(0)
    return max([abs(end) for end in interval if end is not None] or [Fraction(0)])


def finite(interval):
    return isinstance(interval, tuple) and None not in interval


def worst(goal, number, boxes):
    """The box at which a goal comes closest to a bound that is asked, or, without bounds, at which
    its absolute value may be greatest; None where no box has an interval."""
    some = [box for box in boxes if box.goals and isinstance(box.goals[number], tuple)]

    def near(box):
        low, high = box.goals[number]
        if goal.ask:
            return (None in (low, high), most(box.goals[number]))
        rooms = []
        if goal.lower is not None:
            rooms.append(None if low is None else low - goal.lower)
        if goal.upper is not None:
            rooms.append(None if high is None else goal.upper - high)
        room = min([room for room in rooms if room is not None] or [Fraction(0)])
        return (None in rooms, -room, most(box.goals[number]))
    return max(some, key=near) if some else None
