"""A path as a Python function over words, and searches for points: where a goal is false, where an
error is large, where a condition turns. What is found is judged by others."""

import itertools
import random

from c_nodes import Node, quotient
from c_scripts import SIGNS

FAR = {"<": "max(0, {0} - {1} + 1)", "<=": "max(0, {0} - {1})", ">": "max(0, 1 - {0} + {1})",
       ">=": "max(0, {1} - {0})", "==": "abs({0} - {1})"}
BIG = 1 << 200
NOWHERE = -1e200


# two halves of 16 bits, each at an end
HALVES = (0x80008000, 0x7fff7fff, 0x80007fff, 0x7fff8000, 0x8000, 0x7fff, 0xffff, 0xffff0000)


def word(chance, low, high):
    """A word of a range: an end, near an end or 0, a power of 2, two halves, or any."""
    sort = int(chance.random() * 9)
    if sort > 5:
        wide = high - low + 1
        return low + (int(chance.random() * wide) if wide < 1 << 48 else chance.randrange(wide))
    if sort < 2:
        return high if sort else low
    near = int(chance.random() * 9)
    if sort == 4 and high - low >= 1 << 31:
        x = HALVES[near % 8]
        x = x if x <= high else x - (1 << 32)
    elif sort == 5:
        x = (1 if near < 5 else -1) << int(chance.random() * 64)
    else:
        x = low + near if sort == 2 else high - near if sort == 3 else near * 2 - 9
    return min(max(x, low), high)


class Evaluation:
    """A path as a function `f` of its inputs' words `keys`, whose ranges are `ends`. It gives how
    far the path's conditions are from being true, how far each goal is past its bounds (or below
    -BIG where its branch isn't taken), the outputs, how far each is from its twin (as a float that
    is near), and how far the sides of each condition are from each other.

    Searches try a number of points, by the seconds that these take by rule: a million operations
    each. So a search finds the same on a slow machine."""

    def __init__(self, path):
        self.keys = [k for k, v in path.inputs.items() if v.node.rule is None]
        self.ends = [(path.inputs[k].low, path.inputs[k].high) for k in self.keys]
        self.names = {id(path.inputs[k].node): "x%d" % i for i, k in enumerate(self.keys)}
        self.tables, self.lines, self.branches = {}, [], {}
        # goals that don't rest on the path's conditions
        self.whole = [g.branch is not None and g.branch.whole for g in path.goals]
        for n in path.order:
            name = self.names[id(n)] = "x%d" % len(self.names)
            value, error = self.forms(n)
            self.lines.append("%s = %s" % (name, value))
            if n.rounds:
                self.lines.append("%se = %s" % (name, error))
        far = self.far(path.conds)
        overs = [self.over(g) for g in path.goals]
        outs = [v.node for v in path.outs.values()]
        gaps = ["abs(%s - %s)" % (self.text(c.left), self.text(c.right)) for c in path.conds]

        def listed(some):
            return "(%s)" % "".join(s + ", " for s in some)
        code = "def f(%s):\n    %s\n    return %s, %s, %s, %s, %s\n" % (
            ", ".join("x%d" % i for i in range(len(self.keys))),
            "\n    ".join(self.lines or ["pass"]), far, listed(overs),
            listed(map(self.text, outs)), listed(map(self.error, outs)), listed(gaps))
        scope = dict(self.tables, quo=lambda a, b: BIG if b == 0 else quotient(a, b))
        exec(compile(code, "path", "exec"), scope)
        self.f = scope["f"]

    # -- texts

    def text(self, n):
        if n.op == "lit":
            return "(%d)" % n.const
        return self.names[id(n)] if id(n) in self.names else "(%s)" % self.forms(n)[0]

    def error(self, n):
        if not isinstance(n, Node) or not n.rounds:
            return "0.0"
        return self.names[id(n)] + "e" if id(n) in self.names else "(%s)" % self.forms(n)[1]

    def far(self, conds):
        return " + ".join(FAR[c.way].format(self.text(c.left), self.text(c.right))
                          for c in conds) or "0"

    def over(self, goal):
        """How far a goal is past its bounds; far below 0 where its branch isn't taken."""
        low, high = goal.ends
        over = "max({0} - {1}, {2} - {0})".format(self.text(goal.node), high, low)
        if goal.branch is None or not goal.branch.all():
            return over
        if id(goal.branch) not in self.branches:
            name = "b%d" % len(self.branches)
            self.branches[id(goal.branch)] = name
            self.lines.append("%s = %s" % (name, self.far(goal.branch.all())))
        return "({0} if {1} == 0 else -{2} - {1})".format(over, self.branches[id(goal.branch)],
                                                          BIG)

    def forms(self, n):
        """A node's text, and that of its error."""
        if n.rule is not None:
            return self.ruled(n)
        a = self.text(n.args[0])
        b = self.text(n.args[1]) if isinstance(n.args[1], Node) else n.args[1]
        d, e = self.error(n.args[0]), self.error(n.args[1])
        if n.op == "shift":
            if b <= 0:
                return "%s << %d" % (a, -b), "%s * 2.0 ** %d" % (d, -b)
            value = "%s + %d >> %d" % (a, (1 << b - 1) if n.args[2] == "nu" else 0, b)
            return value, "(((%s) << %d) - %s + %s) * 2.0 ** %d" % (value, b, a, d, -b)
        if n.op == "low":
            return "%s & %d" % (a, (1 << b) - 1), "0.0"
        if n.op == "div":
            value = "quo(%s, %s)" % (a, b)
            error = ("(({4} * {1} - {0}) / {1} + ({2} * {1} - {0} * {3}) / ({1} * ({1} - {3})) "
                     "if {1} and {1} - {3} else 0.0)")
            return value, error.format(a, b, d, e, value)
        error = {"add": "{2} + {3}", "sub": "{2} - {3}",
                 "mul": "{2} * {1} + {0} * {3} - {2} * {3}"}[n.op].format(a, b, d, e)
        return "%s %s %s" % (a, SIGNS[n.op], b), error

    def ruled(self, n):
        """The same of a word that a rule computes."""
        kind, *more = n.rule
        if kind == "table":
            name = "T%d" % len(self.tables)
            self.tables[name] = more[0]
            at = self.text(more[1])
            return "{0}[{1}] if 0 <= {1} < {2} else 0".format(name, at, len(more[0])), "0.0"
        if kind == "rest":
            a = self.text(more[0])
            return "{0} - {1} * quo({0}, {1})".format(a, more[1]), "0.0"
        value = error = "0"
        for conds, node in reversed(more[0]):
            when = " and ".join("%s %s %s" % (self.text(c.left), c.way, self.text(c.right))
                                for c in conds) or "True"
            value = "(%s if %s else %s)" % (self.text(node), when, value)
            error = "(%s if %s else %s)" % (self.error(node), when, error)
        return value, error

    # -- searches

    def climb(self, worth, seconds, enough=None, anywhere=False):
        """The greatest `worth(over, outs, errors, gaps)` that corners, random points and steps from
        the best of them find, and its point, on the path or `anywhere`."""
        chance, best = random.Random(1), []
        left = max(200, int(seconds * 1e6 / (20 + len(self.lines))))
        corners = itertools.product(*self.ends) if len(self.ends) <= 10 else \
            itertools.chain(zip(*self.ends), ([chance.choice(e) for e in self.ends]
                                              for _ in range(1022)))

        def at(point):
            far, *rest = self.f(*point)
            return worth(*rest) if far == 0 or anywhere else -1e300 * (far / (far + 1e6))
        others = ([word(chance, *e) for e in self.ends] for _ in range(3000))
        for point in itertools.chain(corners, others):
            best.append((at(point), tuple(point)))
            if len(best) > left // 2 or enough is not None and best[-1][0] > enough:
                break
        left -= len(best)
        best = [[v, list(p)] for v, p in sorted(set(best), reverse=True)[:8]]
        while self.ends and left > 0 and not (enough is not None and max(best)[0] > enough):
            for it in best:
                for _ in range(60):
                    new = self.moved(it[1], chance)
                    value = at(new)
                    if value > it[0]:
                        it[:] = value, new
                left -= 60
        return max(best)

    def moved(self, point, chance):
        """A point with one or two words moved."""
        new = list(point)
        for _ in range(1 + (chance.random() < 0.5)):
            k = int(chance.random() * len(new))
            low, high = self.ends[k]
            if chance.random() < 0.2:
                new[k] = low if chance.random() < 0.5 else high
                continue
            by = 1 + int(chance.random() * ((high - low) >> int(chance.random() * 40)))
            new[k] = min(max(new[k] + (by if chance.random() < 0.5 else -by), low), high)
        return new

    def point(self, words):
        return dict(zip(self.keys, words))

    def counter(self, number, seconds):
        """A point of the path at which goal `number` is false, as {input: word}, or nothing."""
        value, point = self.climb(lambda over, *_: over[number], seconds, 0, self.whole[number])
        return self.point(point) if value > 0 else None

    def reached(self, error, sign, seconds):
        """A point of the path without a wrap at which an error is far above (1) or below (-1) 0;
        `error` is the number of an output."""
        def worth(over, outs, errors, gaps):
            return NOWHERE if max(over, default=0) > 0 else sign * errors[error]
        value, point = self.climb(worth, seconds)
        return self.point(point) if value > NOWHERE else None

    def nearest(self, number, seconds):
        """A point of the path at which goal `number` is nearest to being false, or far past it."""
        value, point = self.climb(lambda over, *_: over[number], seconds, None, self.whole[number])
        return [self.point(point)] if value > NOWHERE else []

    def edge(self, number, seconds):
        """Points near the place where condition `number` turns: the nearest that is found, and its
        neighbours by one in each input."""
        value, point = self.climb(lambda over, outs, errors, gaps: -gaps[number], seconds, -1)
        found = [point] + [point[:k] + [x + d] + point[k + 1:] for k, x in enumerate(point)
                           for d in (1, -1) if self.ends[k][0] <= x + d <= self.ends[k][1]]
        return [self.point(p) for p in found] if value > NOWHERE else []
