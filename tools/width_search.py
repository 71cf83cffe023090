"""The cheapest values of placeholders with which all goals of a template are proved.

The search proposes values and the program judges them: a point is a tuple of values, and is called
proved where the program proved its script. It ends at a point at which no bit less of any one
placeholder is proved. That another point is cheaper is possible; `every` tries all cheaper ones.
"""

import itertools
import math

import assistants as shared
from width_runs import AT_ONCE, Expired
from width_templates import cost_text

MOST = 200000       # points that `every` tries at most


class Shares:
    """How the ends of the goals move with the placeholders, near a point: each placeholder's share
    of an end doubles with each bit less, and shares add up. Floats: this only proposes."""

    def __init__(self, point, ends, bounds, parts):
        """`ends` are the known ends at the point as numbers that a goal's bound is above, `bounds`
        the bounds; `parts` has for each placeholder what one bit less adds to each end."""
        self.point, self.bounds, self.parts = point, bounds, parts
        self.base = [end - sum(part[k] for part in parts) for k, end in enumerate(ends)]

    def over(self, point):
        """How far the ends are used at a point, 1 where the worst one is just at its bound."""
        worst = 0.0
        for k, bound in enumerate(self.bounds):
            end = self.base[k] + sum(part[k] * 2.0 ** (was - now) for part, was, now
                                     in zip(self.parts, self.point, point))
            room = bound - self.base[k]
            if room > 0:
                worst = max(worst, (end - self.base[k]) / room)
            elif end > bound * (1 + 1e-9 * (1 if bound > 0 else -1)) + 1e-300:
                worst = max(worst, 2.0)
        return worst

    def fits(self, point):
        return self.over(point) <= 1 + 1e-9


def float_of(number):
    try:
        return float(number)
    except OverflowError:
        return math.inf if number > 0 else -math.inf


class Search:
    """A search with a judge (width_runs.Judge), ranges (in the order of the judge's names), a cost
    (width_templates.Cost) and the progress that is told."""

    def __init__(self, judge, ranges, cost):
        self.judge, self.ranges, self.cost = judge, ranges, cost
        self.progress = judge.progress
        self.best, self.swaps, self.starts = None, 0, []
        judge.ask([self.corner(-1)])
        goals = judge.script(self.corner(-1)).goals
        self.bounded = [k for k, g in enumerate(goals) if not g.ask]
        if not self.bounded:
            raise shared.Fault("no goal has bounds, so nothing says which error may be borne")

    # -- points

    def corner(self, place):
        return tuple(values[place] for values in self.ranges)

    def moved(self, point, *moves):
        """A point with some bits more or less, (place, bits) each; None outside of the ranges."""
        new = list(point)
        for place, bits in moves:
            new[place] += bits
        if all(v in values for v, values in zip(new, self.ranges)):
            return tuple(new)
        return None

    def less(self, point):
        """The points with one bit less of one placeholder, by its place."""
        found = {i: self.moved(point, (i, -1)) for i in range(len(point))}
        return {i: new for i, new in found.items() if new is not None}

    def keep(self, point):
        if self.best is None or self.price(point) < self.price(self.best):
            self.best = point

    def price(self, point):
        return self.cost(point), sum(point)

    # -- what is known at points

    def bounds(self, point):
        """The bounds of the bounded goals at a point: pairs, None for an end that is free."""
        return [(g.lower, g.upper) for g in self.judge.script(point).goals if not g.ask]

    @staticmethod
    def ends_of(bounds, intervals):
        """The ends that have bounds as numbers that are to stay below others: (end, bound) each."""
        found = []
        for (low, high), known in zip(bounds, intervals):
            pair = known if isinstance(known, tuple) else (None, None)
            if low is not None:
                found.append((math.inf if pair[0] is None else float_of(-pair[0]), float_of(-low)))
            if high is not None:
                found.append((math.inf if pair[1] is None else float_of(pair[1]), float_of(high)))
        return found

    def answered(self, answer):
        """The intervals of the bounded goals of a proved answer."""
        return [answer.intervals[k] for k in self.bounded]

    def shares(self, point):
        """The shares of the placeholders near a point, or None where nothing finite is known."""
        steps = []
        for i in range(len(point)):
            down, up = self.moved(point, (i, -1)), self.moved(point, (i, 1))
            steps.append((down or up or point, 1.0 if down else 2.0))
        known = self.judge.known([point] + [step for step, _ in steps])
        bounds = self.bounds(point)
        if known[0] is None:
            return None
        here, parts = self.ends_of(bounds, known[0]), []
        if any(math.isinf(end) for end, _ in here):
            return None
        for (_, factor), intervals in zip(steps, known[1:]):
            if intervals is None:
                return None
            there = self.ends_of(bounds, intervals)
            parts.append([min(abs(b - a) * factor, 1e300) for (a, _), (b, _) in zip(here, there)])
        return Shares(point, [end for end, _ in here], [bound for _, bound in here], parts)

    # -- steps

    def uniform(self):
        """The point of the least width that proves all goals as the width of each placeholder, as
        far as its range goes; None where no width does."""
        low = min(values[0] for values in self.ranges)
        high = max(values[-1] for values in self.ranges)
        widths = list(range(low, high + 1))
        points = [tuple(min(max(w, v[0]), v[-1]) for v in self.ranges) for w in widths]
        self.progress.of("uniform widths", -(-len(set(points)) // AT_ONCE))
        for first in range(0, len(points), AT_ONCE):
            some = points[first:first + AT_ONCE]
            for point, answer in zip(some, self.judge.ask(some)):
                if answer.status == 0:
                    self.keep(point)
                    return widths[points.index(point)], point
        return None

    def take(self, point):
        """Takes bits from a proved point while some bit less is proved: each time the one that
        saves most for the room that it uses. Gives the point at which none is."""
        while True:
            self.keep(point)
            steps = self.less(point)
            answers = self.judge.ask([point] + list(steps.values()))
            here = self.ends_of(self.bounds(point), self.answered(answers[0]))
            rated = []
            for new, answer in zip(steps.values(), answers[1:]):
                if answer.status == 0:
                    there = self.ends_of(self.bounds(point), self.answered(answer))
                    rated.append((self.used(here, there), self.cost(point) - self.cost(new), new))
            if not rated:
                return point
            point = max(rated, key=lambda r: (-r[0] / max(float(r[1]), 1e-9), r[1]))[2]

    @staticmethod
    def used(here, there):
        """Which part of the room of the worst end a step uses."""
        most = 0.0
        for (a, bound), (b, _) in zip(here, there):
            if b > a:
                room = bound - a
                most = max(most, (b - a) / room if room > 0 else 1e300)
        return most

    def add(self, point):
        """Adds bits to a point while it stays unproved: each time the one that takes most from what
        is over a bound, for its cost. Gives a proved point, or None."""
        while not self.judge.proved(point):
            steps = [(i, self.moved(point, (i, 1))) for i in range(len(point))]
            steps = [new for _, new in steps if new is not None]
            if not steps:
                return None
            proved = [new for new, a in zip(steps, self.judge.ask(steps)) if a.status == 0]
            if proved:
                return min(proved, key=self.cost)
            known, bounds = self.judge.known([point] + steps), self.bounds(point)
            if known[0] is None or None in known:
                fine = [new for new, ends in zip(steps, known[1:]) if ends is not None]
                point = min(fine or steps, key=self.cost)
                continue
            here, rated = self.ends_of(bounds, known[0]), []
            for new, intervals in zip(steps, known[1:]):
                gain = 0.0
                for (a, bound), (b, _) in zip(here, self.ends_of(bounds, intervals)):
                    room = max(a - bound, abs(bound) * 1e-6, 1e-300)
                    gain += (a - b) / room if a > bound else 0.0
                rated.append((gain / max(float(self.cost(new) - self.cost(point)), 1e-9), new))
            point = max(rated, key=lambda r: r[0])[1]
        return point

    def by_shares(self, shares):
        """The cheapest point that the shares allow, as far as steps and exchanges find it: from
        where it fits, bits are taken by share for cost. None where it fits nowhere."""
        point = shares.point
        while not shares.fits(point):
            raised = [self.moved(point, (i, 1)) for i in range(len(point))]
            raised = [new for new in raised if new is not None]
            if not raised:
                return None
            point = min(raised, key=lambda new: (shares.over(new), self.cost(new)))
        while True:
            over = shares.over(point)
            fine = [new for new in self.less(point).values() if shares.fits(new)]
            if fine:
                here = self.cost(point)
                point = min(fine, key=lambda new: (
                    (shares.over(new) - over) / max(float(here - self.cost(new)), 1e-9)))
                continue
            cheaper = [new for new in self.exchanges(point) if shares.fits(new)]
            if not cheaper:
                return point
            point = min(cheaper, key=lambda new: (self.cost(new), shares.over(new)))

    def exchanges(self, point):
        """The cheaper points with a bit or two more of one placeholder and less of another, or with
        a bit more or two of two others and one less of this one."""
        places, price, found = range(len(point)), self.cost(point), {}
        for i in places:
            for j in places:
                if i == j:
                    continue
                moves = [((i, 1), (j, -1)), ((i, 1), (j, -2)), ((i, 2), (j, -1))]
                for k in places:
                    if k > j and k != i:
                        moves.append(((i, 1), (j, -1), (k, -1)))
                    if k > i and k != j:
                        moves += [((i, a), (k, b), (j, -1)) for a, b in ((1, 1), (1, 2), (2, 1))]
                for move in moves:
                    new = self.moved(point, *move)
                    if new is not None and self.cost(new) < price:
                        found[new] = None
        return list(found)

    def exchange(self, point):
        """A proved point of less cost among the exchanges at a point, or None. Those that shares
        make hopeless are left out."""
        shares = self.shares(point)
        some = [new for new in self.exchanges(point) if new not in self.judge.answers]
        if shares is not None and shares.fits(point):
            some = sorted((new for new in some if shares.over(new) <= 1.2), key=shares.over)
        self.progress.of("exchanges at cost %s" % cost_text(self.cost(point)),
                         -(-len(some) // AT_ONCE))
        for first in range(0, len(some), AT_ONCE):
            part = some[first:first + AT_ONCE]
            self.swaps += len(part)
            fine = [n for n, a in zip(part, self.judge.ask(part)) if a.status == 0]
            if fine:
                return min(fine, key=self.cost)
        return None

    # -- the whole

    def run(self):
        """Searches from the least uniform width; gives that width and its point. Then `best` is a
        point at which no bit less of any one is proved, `ended` whether this was tried to its end.
        None where no uniform width proves all goals."""
        self.ended = False
        start = self.uniform()
        if start is None:
            return None
        try:
            self.search(start[1])
            self.ended = True
        except Expired:
            pass
        return start

    def search(self, start):
        places = len(start)
        self.progress.of("start 1", 2 * places)
        shares = self.shares(start)
        guess = self.by_shares(shares) if shares is not None else None
        found = self.add(guess) if guess is not None else None
        if found is not None:
            self.starts.append(self.take(found))
        goal = sum(self.best) if self.starts else 0
        self.progress.of("start 2", max(1, sum(start) - goal))
        self.starts.append(self.take(start))
        point = self.best
        while True:
            shares = self.shares(point)
            guess = self.by_shares(shares) if shares is not None else None
            if guess is not None and self.cost(guess) < self.cost(point):
                self.progress.of("shares at cost %s" % cost_text(self.cost(point)), 2)
                found = self.add(guess)
                found = self.take(found) if found is not None else None
                if found is not None and self.cost(found) < self.cost(point):
                    point = found
                    continue
            found = self.exchange(point)
            if found is None:
                break
            point = self.take(found)
        self.best = point

    def lower(self, point):
        """What is said of one bit less of each placeholder: (place, point or None if the value is
        its least one, the answer's word or None if it wasn't tried)."""
        found = []
        for i in range(len(point)):
            new = self.moved(point, (i, -1))
            answer = self.judge.answers.get(new) if new is not None else None
            word = None if answer is None else {0: "proved", 4: "limit"}.get(answer.status,
                                                                             "unproved")
            found.append((i, new, word))
        return found


def every(search, price):
    """The points of the ranges that cost less than `price`, cheapest first, each by the program up
    to the first that is proved: (how many were tried, that point or None). A Fault if there are
    more than 200,000."""
    count, some = 0, []
    for values in search.ranges:
        count = (count or 1) * len(values)
    if count > MOST:
        raise shared.Fault("--exhaustive: the ranges have %d points, and at most %d are tried"
                           % (count, MOST))
    for point in itertools.product(*search.ranges):
        cost = search.cost(point)
        if cost < price:
            some.append((cost, point))
    some = [point for _, point in sorted(some)]
    search.progress.of("cheaper points", -(-len(some) // AT_ONCE))
    for first in range(0, len(some), AT_ONCE):
        part = some[first:first + AT_ONCE]
        for k, answer in enumerate(search.judge.ask(part)):
            if answer.status == 0:
                return first + k + 1, part[k]
    return len(some), None
