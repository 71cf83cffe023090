"""What is known of a routine: which goals are proved, which are false and where, how far its
outputs are from exact ones."""

import os
import random
import re

from assistants import value_of
from c_compiled import Compiled
from c_hints import given_twins, own_hints, twin_hints
from c_nodes import Branch, asked_in, computed
from c_prove import Prover, ask
from c_scripts import Claim, atom, claim_of, conditions, program
from c_search import Evaluation, word
from c_source import Refused
from c_statements import TooMany, paths
from c_types import span

ENOUGH = 1.5        # how many times wider than what is reached an error may be without hints
FEW = 64            # paths that are run one by one; of more, branches are joined
ZERO = ("0", "0")


def around(some):
    """The hull of intervals, each a pair of fractions, None for an infinite end."""
    lows, highs = zip(*some)
    return None if None in lows else min(lows), None if None in highs else max(highs)


def exact(ends):
    """A pair of the program's ends as fractions."""
    return tuple(map(value_of, ends))


def width(ends):
    """How wide a pair of the program's ends is; infinite of nothing."""
    if ends is None:
        return float("inf")
    low, high = exact(ends)
    return float("inf") if None in (low, high) else high - low


class Verdict:
    """What is known of one goal that isn't proved: `word` is false or open."""

    def __init__(self, path, number, goal, line):
        self.path, self.number, self.goal, self.line = path, number, goal, line
        self.word, self.point, self.value, self.at, self.seen = "open", None, None, None, None


class Output:
    """What is known of one output, over all paths: pairs of fractions, None if not known."""

    def __init__(self, key):
        self.key, self.range, self.error, self.reached = key, None, None, None
        self.twin, self.hinted, self.rounds, self.paths, self.constant = "exact", False, False, 0, 0


class Work:
    """One routine: `paths`, and what runs of the program tell of them. `words` are those of the
    command line."""

    def __init__(self, words, program_, folder, unit):
        self.words, self.unit = words, unit
        names = [n for n, f in unit.functions.items() if "static" not in f.decl.storage
                 and not n.endswith("_exact")]
        self.name = words.function or (names or [None])[-1]
        if self.name not in unit.functions:
            raise Refused(None, "it has no function %s" % (self.name or "that isn't static"))
        self.ranges, self.sizes = unit.ranges(self.name, words.range)
        self.prover = Prover(folder, self.name, program_, unit, words.assume, words.hint)
        self.folder, self.joins = folder, words.join
        self.sought = {}        # states whose range is sought, with their first values
        self.run_paths(self.ranges)

    def run_paths(self, ranges, joins=None, most=None):
        """Runs the routine with these ranges: along each path if there are few, else with joins."""
        words, self.ranges = self.words, ranges
        joins = self.joins if joins is None else joins
        some = (self.unit, self.name, ranges, self.sizes)
        more = {"apart": words.apart, "states": words.state}
        try:
            self.paths = paths(*some, joins=joins, most=most or FEW, **more)
            self.joins = joins
        except TooMany:
            if joins:
                raise
            self.paths, self.joins = paths(*some, joins=True, **more), True
        self.twins = [given_twins(self.unit, self.name, p) for p in self.paths]
        self.evaluations, self.compiled, self.verdicts, self.live = {}, None, [], []
        self.outputs, self.told, self.hinted, self.errors = {}, {}, False, {}

    def unused(self):
        """The names of ranges that are of no input."""
        known = {k for p in self.paths for some in (p.inputs, p.outs) for k in some}
        known |= {t.name for p in self.paths for t in p.outers}
        known |= {"%s_%s" % (t.name, field) for p in self.paths for t in p.outers
                  if t.sort == "struct" for field in t.kind}
        return sorted(set(self.ranges) - known)

    def evaluation(self, k):
        if k not in self.evaluations:
            self.evaluations[k] = Evaluation(self.paths[k])
        return self.evaluations[k]

    def c(self):
        """The compiled routine."""
        if self.compiled is None:
            self.compiled = Compiled(self.unit, self.name, self.paths, self.folder)
        return self.compiled

    def goals(self):
        """The goals of all paths, each once: {(place, text, what)}."""
        place = self.unit.place
        return dict.fromkeys((place(g.where.coord), g.node.text, g.what)
                             for p in self.paths for g in p.goals)

    def meant(self):
        """{place: text} of what wraps on some path, and is meant to."""
        return {place: text for p in self.paths for place, text in p.meant.items()}

    def idle(self):
        """The lines that say that something is meant to wrap, where nothing may."""
        return sorted(self.unit.marked - {int(place.split(":")[-2]) for place in self.meant()})

    # -- whether something wraps

    def groups(self, k):
        """[(branch, numbers of goals)] of a path: goals with the same conditions."""
        found = {}
        for i, goal in enumerate(self.paths[k].goals):
            branch = asked_in(goal)
            found.setdefault(id(branch), (branch, []))[1].append(i)
        return list(found.values())

    def judge(self):
        """Asks all goals; those that aren't proved stand in `verdicts`. With joins, if some stay
        open, the paths are run one by one."""
        self.asked()
        if self.joins and not self.words.join and any(v.word == "open" for v in self.verdicts):
            before = self.paths, self.twins, self.verdicts, self.live, self.hinted
            kept, evaluations = dict(self.prover.kept), self.evaluations
            try:
                self.prover.kept.clear()
                self.joins = False
                self.run_paths(self.ranges, False, 640)
            except TooMany:
                self.joins = True
            if not self.joins:
                self.asked()
            if self.joins or len(self.verdicts) > len(before[2]):
                self.paths, self.twins, self.verdicts, self.live, self.hinted = before
                self.prover.kept, self.evaluations, self.joins = kept, evaluations, True

        if any(not v.goal.what.startswith("joined") for v in self.verdicts):
            # that a joined word leaves its range follows from what wraps before
            self.verdicts = [v for v in self.verdicts if not v.goal.what.startswith("joined")]

    def asked(self):
        many = len(self.paths) > 1
        for k, path in enumerate(self.paths):
            if self.prover.empty(path):
                continue
            self.live.append(k)
            for number, (branch, numbers) in enumerate(self.groups(k)):
                name = "_".join(["%d" % (k + 1)] * many + ["branch%d" % number] * (number > 0))
                opened, hinted = self.prover.wraps(path, branch, numbers, name or "goals")
                self.hinted = self.hinted or hinted
                for i, line in opened:
                    self.open(k, i, line)

    def open(self, k, i, line):
        """Says of a goal that stays open what can be said: a point where it is false, or nothing;
        or finds hints by which it is proved."""
        path, goal, seconds = self.paths[k], self.paths[k].goals[i], self.words.seconds
        head = self.unit.place(goal.where.coord), goal.node.text, goal.what
        if any(head == v.head for v in self.verdicts):
            return
        point = self.evaluation(k).counter(i, min(2.0, seconds / 3))
        claim = claim_of(goal, self.prover.place)
        if point is not None and not self.meets(k, point):
            point = None
        if point is None:
            own = own_hints(path, [goal.node], conditions(path, goal.branch))
            text = self.prover.script(path, [claim], goal.branch, own)
            if self.prover.hinted(text, "%d_goal%d.fx" % (k + 1, i + 1), seconds):
                self.hinted = True
                return
        found = Verdict(k, i, goal, line)
        found.head = head
        self.verdicts.append(found)
        if point is not None:
            found.point, found.seen = self.seen(k, i, point)
            found.value = computed(goal.node, found.point, {})
            text = self.prover.script(path, [claim], goal.branch)
            lines = self.prover.at(path, found.point, text)
            goals = [x for x in lines if x.startswith("goal 1: ")]
            if goals and not goals[0].endswith("holds") and lines[-1:] == ["point: meets"]:
                found.word, found.at = "false", "fails by `at`"
            elif found.seen[0]:
                found.word, found.at = "false", "`at` doesn't judge it: %s" % " ".join(lines[-1:])
            if any(found.point.get(name, first) != first for name, first in self.sought.items()):
                found.word = "open"     # calls may not reach this state

    def meets(self, k, point):
        """Whether a point isn't known to miss what is assumed."""
        path, assumed = self.paths[k], " ".join(self.words.assume)
        said = set(re.findall(r"\w+", assumed))
        claim = Claim("0 in ?", [(n, False) for n in path.order if n.name in said], "")
        return not said or self.prover.at(path, point, self.prover.script(
            path, [claim], Branch(None, [])))[-1:] != ["point: misses"]

    def seen(self, k, i, point):
        """A point, perhaps another, at which goal i fails, and what the compiled C does there: (a
        fault or a wrong output, that as text)."""
        compiled, path, chance = self.c(), self.paths[k], random.Random(1)
        if compiled.fault:
            return point, (False, "it isn't built (%s)" % compiled.fault)
        near, evaluation = [point], self.evaluation(k)
        for _ in range(300):
            other = {key: x if chance.random() < 0.5 else
                     word(chance, path.inputs[key].low, path.inputs[key].high)
                     for key, x in point.items()}
            far, over, *_ = evaluation.f(*other.values())
            near += [other] if far == 0 and over[i] > 0 else []
        for other in near[:40]:
            rows, faults = compiled.run([other])
            mine = {key: computed(v.node, other, {}) for key, v in path.outs.items()}
            wrong = ["%s = %s, not %s" % (key, rows[0][key], x) for key, x in mine.items()
                     if rows and x is not None and rows[0][key] != x]
            if faults or wrong:
                return other, (True, ", ".join(faults[:1] or wrong))
        return point, (False, "its outputs are the same")

    # -- how far the outputs are from exact ones

    def join_errors(self, k, node, deep=0):
        """Finds the errors of the joined words on which a node's twin rests; whether all are
        known."""
        path, todo, seen = self.paths[k], [node], set()
        while todo:
            n = todo.pop()
            if id(n) in seen or not n.rounds:
                continue
            seen.add(id(n))
            todo += n.inner()
            if n.rule is not None and n.rule[0] == "join" and not self.join_error(k, n):
                return False
        return True

    def join_error(self, k, n):
        """The error of a joined word: the hull of those of its ways."""
        path, known = self.paths[k], self.errors.setdefault(k, {})
        if id(n) in known:
            return known[id(n)] is not None
        known[id(n)], ends = None, []
        for number, (conds, v) in enumerate(n.rule[1]):
            if not v.rounds:
                ends.append(ZERO)
                continue
            if not self.join_errors(k, v):
                return False
            claim = Claim("%s - %s in ?" % (atom(v), atom(v, True)), [(v, False), (v, True)], "")
            name = "%d_%s_way%d_error.fx" % (k + 1, n.name, number + 1)
            found = self.prover.interval(path, claim, name, n.branch, conds,
                                         twin_hints(path, v, None), known)
            if found == "empty":
                continue
            if found is None or width(found) == float("inf"):
                return False
            ends.append(found)
        low = min(ends, key=lambda e: exact(e)[0], default=ZERO)[0]
        high = max(ends, key=lambda e: exact(e)[1], default=ZERO)[1]
        known[id(n)] = low, high
        return True

    def value(self, k, key, node, branch=None, conds=(), name=""):
        """The range of a node on a path; of a joined word the hull over its ways, where that is
        known."""
        path, name = self.paths[k], name or key
        if node.rule is not None and node.rule[0] == "join":
            some = [self.value(k, key, v, node.branch, more, "%s_way%d" % (name, i + 1))
                    for i, (more, v) in enumerate(node.rule[1])]
            some = [s for s in some if s != "empty"]
            if some and None not in some:
                return (min((s[0] for s in some), key=value_of),
                        max((s[1] for s in some), key=value_of))
        claim = Claim(ask(node), [(node, False)], "")
        found = self.prover.interval(path, claim, "%d_%s.fx" % (k + 1, name), branch, conds)
        return None if found and found != "empty" and None in exact(found) else found

    def error(self, k, key, seconds=0):
        """What `prove` knows of an output less its twin."""
        path, node = self.paths[k], self.paths[k].outs[key].node
        given, own = self.twins[k].get(key), self.join_errors(k, node)
        if not given and not own:
            return None
        twin = given[0] if given else atom(node, True)
        claim = Claim("%s - %s in ?" % (atom(node), twin), [(node, False)] + [(node, True)] * own,
                      "")
        more = twin_hints(path, node, given) if own and node.op != "lit" else []
        return self.prover.interval(path, claim, "%d_%s_error.fx" % (k + 1, key), None, (), more,
                                    self.errors.get(k), seconds)

    def value_of_error(self, k, key, point):
        """An output's exact error at a point."""
        node, given, memo = self.paths[k].outs[key].node, self.twins[k].get(key), {}
        twin = given[1](point) if given else computed(node, point, memo, True)
        return computed(node, point, memo) - twin

    def reach(self, k, key):
        """The least and the greatest error that a search finds on a path, exactly."""
        evaluation, seconds, points = self.evaluation(k), self.words.reach, []
        if key in self.twins[k]:
            chance = random.Random(1)
            for _ in range(max(100, int(seconds * 1e6 / (20 + len(evaluation.lines))))):
                point = [word(chance, *e) for e in evaluation.ends]
                far, over, *_ = evaluation.f(*point)
                if far == 0 and max(over, default=0) <= 0:
                    points.append(evaluation.point(point))
        else:
            number = list(self.paths[k].outs).index(key)
            points = [evaluation.reached(number, sign, seconds / 2) for sign in (-1, 1)]
        try:
            found = [self.value_of_error(k, key, p) for p in points
                     if p is not None and self.meets(k, p)]
        except (TypeError, ZeroDivisionError):
            return None
        return (min(found), max(found)) if found else None

    def measure(self):
        """What is known of each output; stands in `outputs`."""
        for k in self.live:
            values, errors = {}, {}
            for key, v in self.paths[k].outs.items():
                values[key] = self.value(k, key, v.node)
                if key in self.twins[k] or v.node.op != "lit":
                    rounds = key in self.twins[k] or v.node.rounds
                    errors[key] = self.error(k, key) if rounds else ZERO
            self.told[k] = values, errors
        for key in dict.fromkeys(key for k in self.live for key in self.paths[k].outs):
            self.outputs[key] = self.one(key)

    def one(self, key):
        """The hulls of one output over the paths, as far as each is known."""
        found, mine = Output(key), [k for k in self.live if key in self.paths[k].outs]
        some = [it for it in (self.told[k][0][key] for k in mine) if it != "empty"]
        found.paths = len(mine)
        if some and None not in some:
            found.range = around([exact(s) for s in some])
            if not self.verdicts and None not in found.range:   # its type's range is proved, too
                low, high = span(self.paths[mine[0]].outs[key].kind)
                found.range = max(found.range[0], low), min(found.range[1], high)
        errors = {k: self.told[k][1][key] for k in mine
                  if self.told[k][1].get(key, "empty") != "empty"}
        found.rounds = any(e != ZERO for e in errors.values())
        if not found.rounds:
            return found
        reached = {}
        for _ in range(6):       # the paths that decide the hull are looked at more closely
            open_ = [k for k, e in errors.items() if width(e) == float("inf")]
            worst = open_ or [min(errors, key=lambda k: exact(errors[k])[0]),
                              max(errors, key=lambda k: exact(errors[k])[1])]
            for k in [k for k in dict.fromkeys(worst) if k not in reached][:2]:
                reached[k] = self.reach(k, key)
                if reached[k] and self.words.narrow and width(errors[k]) > \
                        ENOUGH * (reached[k][1] - reached[k][0]):
                    better = self.error(k, key, self.words.narrow)
                    if better != "empty" and width(better) < width(errors[k]):
                        errors[k], found.hinted = better, True
        known = [r for r in reached.values() if r]
        found.reached = around(known) if known else None
        found.twin = "given twin" if any(key in self.twins[k] for k in mine) else "exact"
        found.constant = len(mine) - len(errors)
        if None not in errors.values():
            found.error = around([exact(e) for e in errors.values()])
        self.told.update({k: (self.told[k][0], dict(self.told[k][1], **{key: e}))
                          for k, e in errors.items()})
        return found

    def fixed(self):
        """What the program says of the same as a fixed-point program: a pair (proved, its line), or
        nothing if there is none."""
        text = program(self.paths[0]) if len(self.paths) == 1 else None
        if text is None or self.verdicts:
            return None
        name = self.prover.file(text, "program.fix")
        made = os.path.join(self.folder, "%s_program.fx" % self.name)
        if os.path.exists(made):
            os.unlink(made)
        status, lines = self.prover.run("fix", name, made)
        if status:
            return False, " ".join(lines[:1])
        with open(made, encoding="latin-1") as it:
            status, lines = self.prover.prove(it.read(), "program.fx")
        return status == 0, " ".join(lines[:1])
