"""The test of `from_c`: the compiled C, the translator's evaluation and `at` against each other."""

import random

from c_nodes import asked_in, computed, holds
from c_scripts import Claim, atom, claim_of, conditions, room
from c_search import word
from c_types import COMPARES
from assistants import value_of


class Trial:
    """A test on random words, where conditions turn, and where goals are nearest to being false.
    `words` were tried, `wrapped` of them wrap, `bad` says what differs; `fault` says why there was
    no test."""

    def __init__(self, work, count, seed):
        self.work, self.bad, self.wrapped, self.words = work, [], 0, 0
        compiled = work.c()
        self.fault = compiled.fault
        if self.fault:
            return
        points, quiet = self.points(count, seed), []
        self.words = len(points)
        for point in points:
            memo = {}
            here = [k for k, p in enumerate(work.paths) if holds(p.conds, point, memo)]
            if not here and (self.excluded(point, memo) or self.undefined(point, memo)):
                continue
            if len(here) != 1:
                self.bad.append("%d paths take %s" % (len(here), point))
                continue
            path = work.paths[here[0]]
            if not work.meets(here[0], point):
                self.words -= 1
                continue
            fine = True
            for goal in path.goals:
                if goal.branch is None or holds(goal.branch.all(), point, memo):
                    value = computed(goal.node, point, memo)
                    fine = fine and value is not None and goal.ends[0] <= value <= goal.ends[1]
            quiet += [(point, here[0])] if fine else []
            self.bad += self.ways(path, point, memo) if fine else []
            self.bad += self.held(here[0], point, fine)
        self.wrapped = self.words - len(quiet)
        self.compare(compiled, quiet)

    def excluded(self, point, memo):
        """Whether a point is on no path since a goal fails that says so."""
        for path in self.work.paths:
            for goal in path.goals:
                if goal.branch is not None and goal.branch.whole and \
                        holds(goal.branch.conds, point, memo):
                    value = computed(goal.node, point, memo)
                    if value is not None and not goal.ends[0] <= value <= goal.ends[1]:
                        return True
        return False

    def undefined(self, point, memo):
        """Whether a point leaves its path where a condition has no value, as after x / 0."""
        for path in self.work.paths:
            for c in path.conds:
                a, b = computed(c.left, point, memo), computed(c.right, point, memo)
                if a is None or b is None:
                    return True
                if not COMPARES[c.way](a, b):
                    break
        return False

    def points(self, count, seed):
        """The points that are tried."""
        work, chance = self.work, random.Random(seed)
        ends = {k: (v.low, v.high) for p in work.paths for k, v in p.inputs.items()
                if v.node.rule is None}
        points = [{key: word(chance, *e) for key, e in ends.items()} for _ in range(count)]
        live, turns = work.live or range(len(work.paths)), set()
        tries = [(work.evaluation(k).edge, i, (str(c.where.coord), c.left.text, c.way))
                 for k in live for i, c in enumerate(work.paths[k].conds)][:600]
        near = [(work.evaluation(k).nearest, i, (k, i)) for k in live
                for i in range(len(work.paths[k].goals))]
        tries += chance.sample(near, min(60, len(near)))
        for search, i, turn in tries:
            found = search(i, 0.02) if turn not in turns and len(turns) < 100 else []
            turns |= {turn} if found else set()
            points += [{key: p.get(key, low) for key, (low, high) in ends.items()} for p in found]
        return points

    @staticmethod
    def ways(path, point, memo):
        """What is wrong with joins at a point: each has exactly one way there, within its range."""
        bad = []
        for node in path.order:
            if node.rule is None or node.branch is not None and \
                    not holds(node.branch.all(), point, memo):
                continue
            if node.rule[0] == "join":
                taken = sum(holds(conds, point, memo) for conds, _ in node.rule[1])
                if taken != 1:
                    bad.append("%d ways of %s are taken at %s" % (taken, node.name, point))
        return bad

    def compare(self, compiled, quiet):
        """Holds the C's outputs against the evaluation's, and errors against what is proved."""
        work, bad = self.work, self.bad
        rows, faults = compiled.run([p for p, _ in quiet])
        bad += ["gcc tells %s where no goal fails" % f for f in faults]
        if len(rows) != len(quiet):
            bad.append("the C printed %d rows of %d" % (len(rows), len(quiet)))
        for (point, k), row in zip(quiet, rows):
            for key, v in work.paths[k].outs.items():
                mine = computed(v.node, point, {})
                if row[key] != mine:
                    bad.append("at %s the C gives %s = %s, the path %s" % (point, key, row[key],
                                                                           mine))
                for what, value in (("range", mine), ("error", None)):
                    some = work.told.get(k, ({}, {}))[what == "error"].get(key)
                    if not some or some == "empty":
                        continue
                    value = work.value_of_error(k, key, point) if value is None else value
                    low, high = map(value_of, some)
                    if low is not None and value < low or high is not None and value > high:
                        bad.append("at %s the %s of %s is past what is proved" % (point, what,
                                                                                  key))

    def held(self, k, point, fine):
        """What differs between `at` and the evaluation, at a point of a path. Unless it is fine,
        words that a rule computes may be past their ranges there."""
        work, path, bad, memo = self.work, self.work.paths[k], [], {}
        groups = {}
        for goal in path.goals:
            branch = asked_in(goal)
            if branch is None or holds(branch.all(), point, memo):
                claim = claim_of(goal, work.prover.place)._replace(remark="")
                groups.setdefault(id(branch), (branch, []))[1].append((goal.node, claim))
        outs = [(v.node, Claim("%s in ?" % atom(v.node), [(v.node, False)], ""))
                for v in path.outs.values()]
        groups.setdefault(id(None), (None, []))[1].extend(outs)
        for branch, nodes in groups.values():
            size = room(path, conditions(path, branch), work.words.assume)
            for a in range(0, len(nodes), size):
                some = nodes[a:a + size]
                text = work.prover.script(path, [c for _, c in some], branch)
                lines = work.prover.at(path, point, text)
                if not lines and not fine:
                    continue
                told = [x.split(": ", 1)[1].split(",")[0] for x in lines
                        if x.startswith("goal ")]
                mine = [computed(n, point, memo) for n, _ in some]
                wide = lines[:1] and lines[0].startswith("too wide")
                if lines[-1:] != ["point: meets"] and fine and not work.words.assume and \
                        not wide:
                    bad.append("by `at` %s isn't on its path: %s" % (point, lines[-1:]))
                if not wide and (len(told) != len(mine) or any(
                        v is not None and t != str(v) for t, v in zip(told, mine))):
                    bad.append("`at` has other values at %s: %s, not %s" % (point, told, mine))
        return bad
