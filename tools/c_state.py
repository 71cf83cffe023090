"""Places that are kept from call to call: the least range that is looked for, which the goals of
the routine then have to show."""

from assistants import value_of
from c_types import span
from c_work import Work
from script_text import Fault

TURNS, EXACT, CHECKS = 40, 8, 100       # steps of the search, without widening, and of narrowing


def judged(words, program, folder, unit):
    """A routine whose goals are judged, and lines on its states. A state without a given range gets
    one that is sought from its first value."""
    work = Work(words, program, folder, unit)
    names = {n for p in work.paths for thing, sel in p.firsts for n in (thing.name,
                                                                       thing.cell(sel))}
    for name in words.state:
        if name not in names:
            raise Fault("--state %s is no place that the routine reads" % name)
    states, lines = sought(work), []
    work.sought = {name: first for name, (first, _) in states.items()}
    if states:
        found = Search(work, states).range()
        ranges = dict(work.ranges, **found)
        work.run_paths(ranges)
        lines = ["state %s in [%d, %d], from its first value %d" % (
            (name,) + found[name] + (states[name][0],)) for name in states]
    work.judge()
    return work, lines


def sought(work):
    """{name: (first value, type)} of states without a given range."""
    shared, found = {id(d) for d in work.unit.globals.values()}, {}
    for path in work.paths:
        for (thing, sel), v in path.firsts.items():
            name = thing.cell(sel)
            own = thing.static is not None and id(thing.decl) not in shared
            named = name in work.words.state or thing.name in work.words.state
            if (own or named) and name not in work.ranges and thing.name not in work.ranges:
                first = thing.static.get(sel, 0) if thing.static is not None else 0
                found[name] = first, v.kind
    return found


class Search:
    """The search for ranges that hold again after a call."""

    def __init__(self, work, states):
        self.work, self.states, self.given = work, states, work.ranges
        self.joins, self.left = work.joins, CHECKS

    def after(self, ranges):
        """The ranges after a call, with the first values; None if one isn't known."""
        work, found = self.work, {name: [first] for name, (first, _) in self.states.items()}
        work.run_paths(dict(self.given, **ranges))
        for k, path in enumerate(work.paths):
            for name in self.states:
                v = path.outs.get(name)
                if v is None or work.prover.empty(path):
                    found[name] += ranges[name]
                    continue
                ends = work.value(k, name, v.node, name="state_%s" % name)
                if ends == "empty":
                    continue
                if ends is None or None in map(value_of, ends):
                    return None
                found[name] += [int(value_of(ends[0]) // 1), -int(-value_of(ends[1]) // 1)]
        work.prover.kept.clear()
        return {name: (min(some), max(some)) for name, some in found.items()}

    def whole(self):
        return {name: span(kind) for name, (_, kind) in self.states.items()}

    def holds(self, ranges):
        """Whether ranges hold again after a call, as intervals tell."""
        after = self.after(ranges)
        return after is not None and all(low <= after[n][0] and after[n][1] <= high
                                         for n, (low, high) in ranges.items())

    def range(self):
        """Ranges that hold again; the types' where none are found."""
        now = {name: (first, first) for name, (first, _) in self.states.items()}
        least = now
        for turn in range(TURNS):
            after = self.after(now)
            if after is None:
                return self.whole()
            wider = {n: (min(a, after[n][0]), max(b, after[n][1])) for n, (a, b) in now.items()}
            if wider == now:
                return now if turn <= EXACT else self.narrowed(now, least)
            if turn < EXACT:
                least = wider
            else:
                wider = {n: self.widened(now[n], wider[n], self.states[n][1]) for n in wider}
            now = wider
        return self.whole()

    @staticmethod
    def widened(old, new, kind):
        """An interval whose ends that moved are moved to a power of 2, within the type."""
        (low, high), (least, most) = new, span(kind)
        if low < old[0]:
            low = max(least, -(1 << (-low - 1).bit_length())) if low < 0 else 0
        if high > old[1]:
            high = min(most, (1 << high.bit_length()) - 1) if high > 0 else 0
        return low, high

    def narrowed(self, now, least):
        """Ends moved inward by halves, as long as the ranges hold again."""
        for name in now:
            for upper in (True, False):
                good, bad = now[name][upper], least[name][upper]
                while good != bad and self.left > 0:
                    self.left -= 1
                    middle = (good + bad) // 2 if upper else -(-(good + bad) // 2)
                    pair = (now[name][0], middle) if upper else (middle, now[name][1])
                    trial = dict(now, **{name: pair})
                    if self.holds(trial):
                        now, good = trial, middle
                    elif abs(good - bad) == 1:
                        break
                    else:
                        bad = middle + 1 if upper else middle - 1
        return now
