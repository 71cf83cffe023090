"""Word formats of a script's values: of each value that is a multiple of some 2^-F the least sW.F
that holds its proved range.

The program proves both: that the value is in the format's range, and that it is a multiple of 2^-F
(its difference from itself rounded to a multiple is 0).
"""

import time
from collections import namedtuple
from fractions import Fraction

import assistants as shared
from width_runs import batched

# a value's name, its proved range (a pair, or None), F, and W (None: nothing was proved)
Row = namedtuple("Row", "name interval fraction width")


def named(script):
    """The names that have rows, {name: node}: variables, and definitions that are no literals; of
    names of one node the first."""
    found = {}
    for name, node in list(script.variables.items()) + list(script.defined.items()):
        if script.nodes[node][0] != "lit" and node not in found.values():
            found[name] = node
    return found


def finest(script):
    """For each node the greatest power p so that it is a multiple of 2^p by its form, or None; of
    variables by hypotheses `@FIX` that each case has."""
    grids, found = {}, []
    for part in script.parts:
        each = [{c.left: c.lower for c in some if c.kind == "fix"} for some in part]
        for node in each[0] if each else ():
            if all(node in some for some in each):
                power = min(some[node] for some in each)
                grids[node] = max(power, grids.get(node, power))
    for at, node in enumerate(script.nodes):
        kind, inner = node[0], [found[child] for child in shared.children(node)]
        power = None
        if kind == "lit":
            power = power_of(node[1])
        elif kind == "rnd":
            power = node[2]
        elif None not in inner and kind in ("neg", "abs", "add", "sub"):
            power = min(inner)
        elif None not in inner and kind == "mul":
            power = sum(inner)
        if at in grids:
            power = grids[at] if power is None else max(power, grids[at])
        found.append(power)
    return found


def power_of(number):
    """The greatest p so that a fraction is a multiple of 2^p; 0 for 0; None where there is none."""
    if number == 0:
        return 0
    down = number.denominator
    if down & (down - 1):
        return None
    up = number.numerator
    return (up & -up).bit_length() - down.bit_length()


def width_of(low, high, fraction):
    """The least W so that sW.F holds the multiples of 2^-F from low to high."""
    unit = Fraction(2) ** -fraction
    least, most = -(-low // unit), high // unit
    width = 1
    while least < -(1 << (width - 1)) or most > (1 << (width - 1)) - 1:
        width += 1
    return width


def formats(program, script, answer, words, boxes, jobs, seconds=None):
    """The rows of a script: of each name its range as the program proves it, and the least format
    sW.F that it proves to hold the value. `answer` is the script's, which is proved: its goals'
    lines serve for values that stand in goals. None where it takes longer than `seconds`."""
    names, powers = named(script), finest(script)
    plain = [hint.text for hint in script.hints if hint.kind != "halve"]

    ends = None if seconds is None else time.time() + seconds

    def run(goals, hints):
        left = None if ends is None else max(0.1, ends - time.time())
        return batched(program, [script.written(goals=goal, hints=hints) for goal in goals], words,
                       boxes, jobs, left)
    ranges, answers = {}, run([[name + " in ?"] for name in names], plain)
    if answers is None:
        return None
    for name, found in zip(names, answers):
        known = found.intervals[0] if found.status == 0 else (None, None)
        known = [known] if isinstance(known, tuple) else []
        known += [interval for goal, interval in zip(script.goals, answer.intervals)
                  if goal.left == names[name] and goal.kind in ("in", "le", "ge")
                  and isinstance(interval, tuple)]
        lows = [low for low, _ in known if low is not None]
        highs = [high for _, high in known if high is not None]
        fine = lows and highs and max(lows) <= min(highs)
        ranges[name] = (max(lows), min(highs)) if fine else None
    rows, tries = {}, []
    for name, node in names.items():
        fraction = None if powers[node] is None else max(0, -powers[node])
        rows[name] = Row(name, ranges[name], fraction, None)
        if fraction is not None and ranges[name] is not None:
            width = width_of(ranges[name][0], ranges[name][1], fraction)
            tries += [(name, fraction, w) for w in (width, width + 1) if w < 90]
    for hints in [plain] + [None] * (len(plain) < len(script.hints)):
        answers = run([holding(*one) for one in tries], hints)
        if answers is None:
            return None
        for (name, fraction, width), found in zip(tries, answers):
            if found.status == 0 and (rows[name].width or width) >= width:
                rows[name] = rows[name]._replace(width=width)
        tries = [(n, f, w) for n, f, w in tries if rows[n].width is None or rows[n].width > w]
    return list(rows.values())


def holding(name, fraction, width):
    """The goals that say of a name that the format sW.F holds it."""
    end = 1 << (width - 1)
    return ["%s in [-%db-%d,%db-%d]" % (name, end, fraction, end - 1, fraction),
            "fixed<-%d,dn>(%s) - %s in [0,0]" % (fraction, name, name)]


def table(rows):
    """The rows as lines."""
    lines = ["%-12s  %-34s  %s" % ("value", "proved range", "least format")]
    for row in rows:
        shown = "nothing finite" if row.interval is None else shared.decimals(row.interval)
        if row.width is not None:
            says = "s%d.%d" % (row.width, row.fraction)
            says += ", past 60 bits" if row.width > 60 or row.fraction > 60 else ""
        elif row.fraction is None:
            says = "none: not known as a multiple of a 2^-F"
        else:
            says = "none was proved, with %d fraction bits" % row.fraction
        lines.append("%-12s  %-34s  %s" % (row.name, shown, says))
    return lines
