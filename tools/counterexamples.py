"""Points that meet a script and at which a goal is false: looked for by trial, judged by `fixprove
at`.

Points are {variable: fraction}. The search proposes; `confirmed` asks the program, and `find` gives
back only what the program said. Nothing that this module returns as found needs trust.

    import counterexamples
    with shared.Program(words.program) as program:
        for found in counterexamples.find(program, words.script, 1.0):
            print(found.goal, found.point, found.value)
"""

import itertools
import os
import random
import time
from collections import namedtuple
from fractions import Fraction

from script_points import Case, Unfit
from script_text import Claim, Fault, Script, rounded
from script_values import NO_VALUE

# what `at` confirmed: the goal's number from 1, the point, the value as `at` prints it, all lines
Found = namedtuple("Found", "goal point value lines")
KEPT, ROUNDS, RANDOMS, CORNERS = 8, 40, 300, 1 << 9
COARSE = (0, 4, 8, 12, 16)  # bits left out where values are too wide for `at`


# ---- one script, one point


def snap(script, name, x):
    """The value nearest to x that lies in the variable's range and on the grid of its @FIX (2^-30
    without one)."""
    low, high = script.ranges().get(name, (-2, 2))
    grids = {c.left: c.lower for _, c in script.hypotheses() if c.kind == "fix"}
    grid = grids.get(script.variables[name], -30)
    x = rounded("ne", grid, Fraction(x))
    return min(max(x, rounded("up", grid, Fraction(low))), rounded("dn", grid, Fraction(high)))


def excess(script, goal, point):
    """How far a goal's value lies outside its bounds at a point: above 0 where the goal is false,
    at most 0 where it holds, 10^9 where it has no value; None for a relative goal with both sides
    0."""
    value = script.value(goal.left, point)
    if goal.kind == "rel":
        right = script.value(goal.right, point)
        if value == right == 0:
            return None
        value = value / right - 1 if value is not None and right else None
    if value is None:
        return Fraction(10) ** 9
    return max(
        [
            goal.lower - value if goal.lower is not None else value - goal.upper,
            value - goal.upper if goal.upper is not None else goal.lower - value,
        ]
    )


# ---- the search


class Search:
    """A search over one case of a script. `worth` has functions of `Case.told`'s tuple that are to
    be large; a point that doesn't meet the case is worth less than each that does."""

    def __init__(self, case, worth, seed=1):
        self.case, self.worth, self.chance, self.tried = case, worth, random.Random(seed), 0
        self.top = case.top
        self.free = [k for k, top in enumerate(self.top) if top]
        self.best = [[] for _ in worth]  # of each worth: [key, place] with key (-far, worth)

    def told(self, place):
        """What the case says of a place: how far it is from meeting it, then what was asked."""
        self.tried += 1
        try:
            return self.case.told(place)
        except OverflowError:
            return None

    def starts(self):
        """Corners, middles and points of many kinds, as lists of whole numbers from 0 to `top`."""
        top, chance = self.top, self.chance
        if 1 << len(self.free) <= CORNERS:
            corners = itertools.product((0, 1), repeat=len(self.free))
        else:
            corners = ([chance.getrandbits(1) for _ in self.free] for _ in range(CORNERS))
        yield [t // 2 for t in top]
        for corner in corners:
            place = [0] * len(top)
            for k, end in zip(self.free, corner):
                place[k] = top[k] * end
            yield place
        for _ in range(RANDOMS):
            yield [self.word(k) for k in range(len(top))]

    def word(self, k):
        """A place of one variable: an end, near an end, near 0, a power of two from 0, or any."""
        chance, top, zero = self.chance, self.top[k], self.case.zero[k]
        way = chance.randrange(9)
        if way > 4:
            return chance.randint(0, top)
        near = (0, top, zero, zero, chance.choice((0, top)))[way]
        step = chance.randrange(9) if way < 3 else 1 << chance.randrange(1 + top.bit_length())
        return min(max(near + chance.choice((-1, 1)) * step * (way != 4), 0), top)

    def begin(self, ends, enough):
        """Tries the starts; the best of each worth are kept. `enough(told)` says when to stop."""
        for place in self.starts():
            told = self.told(place)
            if told is not None:
                for k, worth in enumerate(self.worth):
                    self.best[k].append([self.key(told, worth), place])
                if enough(told):
                    return place
            if self.tried % 64 == 0 and time.time() > ends:
                break
        for found in self.best:
            found.sort(key=lambda it: it[0], reverse=True)
            del found[KEPT:]
        return None

    @staticmethod
    def key(told, worth):
        return (-told[0], 0.0) if told[0] > 0 else (0.0, worth(told))

    def changed(self, place):
        """A place that differs in one variable or in two or three."""
        chance, new = self.chance, list(place)
        for _ in range(chance.choice((1, 1, 1, 2, 2, 3))):
            k = chance.choice(self.free)
            top = self.top[k]
            if chance.random() < 0.2:
                new[k] = self.word(k)
            else:
                step = chance.randint(1, max(1, top >> chance.randrange(1 + top.bit_length())))
                new[k] = min(max(new[k] + chance.choice((-1, 1)) * step, 0), top)
        return new

    def climb(self, number, ends, enough):
        """Steps from the best places of one worth; the place at which `enough` is true, or None
        when the time is up."""
        worth, kept = self.worth[number], self.best[number]
        if not self.free or not kept:
            return None
        turn = 0
        while time.time() < ends:
            kept.sort(key=lambda it: it[0], reverse=True)
            for rank, it in enumerate(kept):
                for _ in range(ROUNDS * (8 if rank == 0 else 1)):
                    place = self.changed(it[1])
                    told = self.told(place)
                    if told is None:
                        continue
                    key = self.key(told, worth)
                    if key >= it[0]:
                        it[:] = key, place
                        if enough(told):
                            return place
            turn += 1
            if turn % 16 == 0:  # the lower half begins anew, by turns near the best and anywhere
                for k, it in enumerate(kept[len(kept) // 2 :]):
                    place = list(kept[0][1])
                    for i in self.free:
                        if turn % 32 == 0 or k % 2 or self.chance.random() < 0.3:
                            place[i] = self.word(i)
                    told = self.told(place)
                    if told is not None:
                        it[:] = self.key(told, worth), place
                        if enough(told):
                            return place
        return None


def search(script, number, goal, ends, coarse=0):
    """A point that meets the script and at which goal `number` (a claim with bounds) is false, or
    None; and how many points were tried. `ends` is the time, as of time.time(), to stop at; with
    `coarse` the last bits of each variable are 0, so that values have fewer digits."""
    searches = begun(script, number, [goal], ends, coarse, False, [outside], false)
    for one in searches:
        if one.place is not None:
            return one.case.point(one.place), sum(it.tried for it in searches)
    going = [one for one in searches if one.free and one.best[0]]
    while going and time.time() < ends:
        for one in list(going):
            place = one.climb(0, min(ends, time.time() + 0.2), false)
            if place is not None:
                return one.case.point(place), sum(it.tried for it in searches)
            if one.best[0][0][0][0] < 0 and one.tried > 20000:
                going.remove(one)  # no point meets the case, it seems
    return None, sum(it.tried for it in searches)


def extremes(script, number, goal, ends, coarse=0):
    """Points that meet the script at which a goal's value is as small and as large as was found, or
    None twice; and how many points were tried. The arguments are those of `search`."""
    worths = [lambda told: signed(told[1], -1), lambda told: signed(told[1], 1)]
    searches = begun(script, number, [goal], ends, coarse, True, worths, lambda told: False)
    found = [None, None]
    for side in (0, 1):
        going = [one for one in searches if one.free and one.best[side]]
        until = time.time() + (ends - time.time()) / (2 - side)
        while going and time.time() < until:
            for one in going:
                one.climb(side, min(until, time.time() + 0.2), lambda told: False)
        kept = [
            (max(one.best[side], key=lambda it: it[0]), one) for one in searches if one.best[side]
        ]
        kept = [
            (key, one.case.point(place))
            for (key, place), one in kept
            if key[0] == 0 and key[1] > -NO_VALUE
        ]
        found[side] = max(kept, key=lambda it: it[0])[1] if kept else None
    return found[0], found[1], sum(one.tried for one in searches)


def begun(script, seed, goals, ends, coarse, values, worths, enough):
    """Searches over the cases of a script, their starts tried; the last has a `place` where one of
    these was enough."""
    found, cases = [], cases_of(script, coarse)
    for case in cases:
        case.ask(goals, values)
        found.append(Search(case, worths, seed))
        until = time.time() + (ends - time.time()) / (len(cases) + 1 - len(found))
        found[-1].place = found[-1].begin(until, enough)
        if found[-1].place is not None:
            break
    return found


def outside(told):
    return told[1]


def signed(value, sign):
    return -NO_VALUE if value is None else sign * value


def false(told):
    return told[0] <= 0 and told[1] > 0


def cases_of(script, coarse=0):
    """The cases of a script that points can be made for; these meet `script.assumed`, if it has
    that."""
    found = []
    for number in range(1, script.cases() + 1):
        try:
            found.append(Case(script, number, coarse, getattr(script, "assumed", ())))
        except Unfit:
            continue
    return found


# ---- what the program says


def point_text(point):
    """A point as a file for `fixprove at`."""
    return "".join("%s = %s;\n" % (name, spelled(Fraction(v))) for name, v in point.items())


def spelled(value):
    """A fraction as an entry of a point: n, nb-k or n / d."""
    power = value.denominator.bit_length() - 1
    if value.denominator == 1 << power:
        return "%db-%d" % (value.numerator, power) if power else str(value.numerator)
    return "%d / %d" % (value.numerator, value.denominator)


def at(program, path, point):
    """The lines of `fixprove at` for a script's file and a point. `program` is an entered
    Program."""
    name = os.path.join(program.folder.name, "%d.point" % next(program.runs))
    with open(name, "w", encoding="latin-1") as file:
        file.write(point_text(point))
    lines = program.run(["at", path, name]).lines
    os.unlink(name)
    return lines


def at_text(program, text, point):
    """The same for a script's text."""
    name = os.path.join(program.folder.name, "%d.fx" % next(program.runs))
    with open(name, "w", encoding="latin-1", newline="") as file:
        file.write(text)
    lines = at(program, name, point)
    os.unlink(name)
    return lines


def confirmed(program, path, number, point):
    """What `fixprove at` says of a point: a Found if it meets the script at `path` and goal
    `number` fails or has no value there, else None."""
    lines = at(program, path, point)
    front = "goal %d: " % number
    said = [line[len(front) :] for line in lines if line.startswith(front)]
    value, _, word = said[0].partition(", ") if said else ("", "", "")
    if word != "fails" and value != "no value" or lines[-1] != "point: meets":
        return None
    return Found(number, dict(point), value, lines)


def assume(program, script):
    """Sets `script.assumed`: the equations that its assumed hints are, but for those with
    constraints. (`fixprove at` judges all.)"""
    rewrites, script.assumed = [h for h in script.hints if h.kind == "rewrite"], []
    if not rewrites:
        return
    hints = [h.text for h in script.hints if h.kind in ("rewrite", "like")]
    answer = program.prove(script.written(goals=["0 in ?"], hints=hints), ["--rounds", "1"])
    for number in answer.assumed if answer.status == 0 else []:
        hint = rewrites[number - 1]
        if not hint.needs:
            made = script.node(("sub", hint.left, hint.right))
            zero = Fraction(0)
            script.assumed.append(
                Claim("in", False, made, None, zero, zero, False, hint.text, hint.text)
            )


def find(program, path, seconds=2.0, goals=None):
    """Looks for at most `seconds` for points at which goals of the script at `path` are false; of
    all goals with bounds, or of the numbers in `goals` (from 1; of a `?` goal, where it has no
    value). Gives a list of Found, one for each false goal, in order: each confirmed by `fixprove
    at`. The list is empty where nothing was found, also where the text isn't read. `program` is an
    entered Program of assistants.py."""
    found, begin = [], time.time()
    try:
        with open(path, "rb") as file:
            script = Script(file.read().decode("latin-1"))
        assume(program, script)
        asked = [
            (k, goal)
            for k, goal in enumerate(script.goals, 1)
            if (not goal.ask if goals is None else k in goals)
        ]
        for place, (number, goal) in enumerate(asked):
            ends = time.time() + (begin + seconds - time.time()) / (len(asked) - place)
            for coarse in COARSE:
                point, _ = search(script, number, goal, ends, coarse)
                one = None if point is None else confirmed(program, path, number, point)
                if one:
                    found.append(one)
                if one or point is None:
                    break
    except (Fault, RecursionError):
        return found
    return found


def find_in(program, text, seconds=2.0, goals=None):
    """The same of a script's text."""
    name = os.path.join(program.folder.name, "%d.fx" % next(program.runs))
    with open(name, "w", encoding="latin-1", newline="") as file:
        file.write(text)
    found = find(program, name, seconds, goals)
    os.unlink(name)
    return found


def reached(program, path, script, number, seconds):
    """The least and the greatest value of goal `number` that were found, as Found, or None where
    none was: each as `fixprove at` prints it, at a point that meets the script."""
    goal, ends, found = script.goals[number - 1], time.time() + seconds, [None, None]
    assume(program, script)
    for coarse in COARSE:
        points = extremes(script, number, goal, time.time() + (ends - time.time()) / 2, coarse)[:2]
        for side, point in enumerate(points):
            lines = at(program, path, point) if point and found[side] is None else [""]
            front = "goal %d: " % number
            value = [
                line[len(front) :].partition(",")[0] for line in lines if line.startswith(front)
            ]
            if lines[-1] == "point: meets" and value[0] not in ("zero", "no value"):
                found[side] = Found(number, point, value[0], lines)
        if None not in found or None in points:
            break
    return found
