#!/usr/bin/env python3
"""What `check` says of steps by every rule: its status and lines, the reference's and `recheck`'s.

    tools/compare/rule_runs.py COUNT SEED [JOBS] [--program PROGRAM]

Words and counts are those of runs.py. A case is a random script, and steps by rules that are
drawn evenly, whether or not a proof needs them. Each states what its rule gives by some steps
before, or less. Some steps are met with others. Of each case there are ten certificates: these
steps, and one more that may state too much, cite others, have another rule or be of another slot.
"""

import sys

import items
import recheck_runs
import roots
import runs
import texts


# Expressions on which rules stand that random scripts seldom reach.
DENSE = ["a + b -/ (c + d)", "a * b -/ c * d", "a / b -/ c / d", "-a -/ -c", "a -/ c", "c -/ a",
         "(a + b) - (c + d)", "(a - b) - (c - d)", "a * b - c * d", "-a - -c", "c / (c + d)",
         "a - d", "b - c", "a / c", "b / d", "a / a", "|a|", "q(a) - a", "q(b) -/ b", "-b", "a * a"]


def dense(rng):
    """A script over four variables with claims and goals on many of these."""
    maker = roots.RootMaker(rng)
    claims = ["%s in %s" % (name, maker.interval()) for name in "abcd" if maker.maybe(0.8)]
    for left, right in ("ac", "bd", "cd", "ab"):
        if maker.maybe(0.6):
            near = "[-%db-4,%db-4]" % (rng.randrange(15), rng.randrange(15))
            claims.append("%s -/ %s in %s" % (left, right, near))
            if maker.maybe(0.3):  # both sides are 0, or none is left
                claims.append("%s -/ %s in [1,2]" % (left, right))
        if maker.maybe(0.4):
            claims.append("%s - %s in %s" % (left, right, maker.interval()))
    claims += ["@FIX(%s,%d)" % (name, rng.randint(-6, 3)) for name in "abcd" if maker.maybe(0.5)]
    rounding = "@q = fixed<%d,%s>;" % (rng.randint(-5, 1), rng.choice(texts.DIRECTIONS))
    goals = ["%s in ?" % goal for goal in rng.sample(DENSE, 12)]
    hints = rng.sample(["a -> b { a <> 0, c < 3 };", "a / b -> c / d;", "a ~ d;", "b ~ c;"], 2)
    rng.shuffle(claims)
    given = " /\\ ".join(claims) + " -> " if claims else ""
    return "%s { %s%s } %s" % (rounding, given, " /\\ ".join(goals), " ".join(hints))


def weaker(rng, fact):
    """The fact, or one that says less."""
    (kind, *_), value = fact
    grid = runs.module("grid")
    if kind in "BAR" and isinstance(value, tuple) and rng.random() < 0.4:
        wide = items.interval_near(rng, value, {"B": grid.LOW, "A": 0, "R": -grid.ONE // 2}[kind])
        if wide and grid.inside(value, wide):
            return fact[0], (grid.down(wide[0]), grid.up(wide[1]))
    if kind == "F" and rng.random() < 0.4:
        return fact[0], max(-1024, value - rng.choice([1, 7]))
    return fact


class Steps:
    """Steps that the reference concludes, and the facts that they state."""

    def __init__(self, rng, script):
        self.rng, self.uni = rng, runs.module("universe").Universe(script)
        self.steps, self.facts, self.by_slot = [], [], {}
        self.by_rule = {}
        for instance in self.uni.instances:
            self.by_rule.setdefault(instance[0], []).append(instance)
        for arg, fact in enumerate(script.facts()):
            self.state(100, arg, fact, None, ())
        for _, node in script.variables:
            self.state(101, 0, (("B", node), runs.module("grid").WHOLE), None, ())

    def state(self, rule, arg, fact, met, premises):
        """One more step."""
        self.by_slot.setdefault(fact[0], []).append(len(self.steps))
        self.steps.append(("Step", rule, arg, fact, met, tuple(premises)))
        self.facts.append(fact)

    def drawn(self):
        """A rule that may be used: (rule, arg, slot, premises as step numbers), or None."""
        rule = self.rng.choice(sorted(self.by_rule))
        for _ in range(8):
            _, arg, _, slot, wanted = self.rng.choice(self.by_rule[rule])
            if all(premise in self.by_slot for premise in wanted):
                return rule, arg, slot, [self.rng.choice(self.by_slot[p]) for p in wanted]
        return None

    def follow(self):
        """One step by a drawn rule, where it gives something."""
        found = self.drawn()
        if found is None:
            return
        rule, arg, slot, premises = found
        facts = runs.module("facts")
        if self.rng.random() < 0.05:
            slot = facts.VOID_SLOT
        given = runs.module("rules").conclude(
            self.uni.dag, self.uni.hints, rule, arg, [self.facts[p] for p in premises], slot)
        if given is None or given == facts.VOID and self.rng.random() < 0.7:
            return
        met = None
        if given[0] in self.by_slot and self.rng.random() < 0.3:
            met = self.rng.choice(self.by_slot[given[0]])
            given = facts.meet(given, self.facts[met])
        if given != facts.VOID or self.rng.random() < 0.2:
            self.state(rule, arg, weaker(self.rng, given), met, premises)

    def risky(self):
        """A step that may be wrong."""
        rng, found = self.rng, None
        while found is None:
            found = self.drawn()
        rule, arg, slot, premises = found
        fact = self.facts[rng.choice(self.by_slot[slot])] if slot in self.by_slot else (
            items.random_fact(rng))
        given = runs.module("rules").conclude(
            self.uni.dag, self.uni.hints, rule, arg, [self.facts[p] for p in premises], slot)
        if given and rng.random() < 0.8:
            fact = given
        step = ("Step", rule, arg, items.fact_near(rng, fact), None, tuple(premises))
        return items.changed_step(rng, step, len(self.steps)) if rng.random() < 0.4 else step


def rows(case):
    rng, grammar = case.rng, runs.module("parser")
    for _ in range(20):
        maker = roots.RootMaker(rng)
        text = maker.script(rng.choice(maker.goals())) if rng.random() < 0.3 else dense(rng)
        text = text.encode()
        try:
            script = grammar.parse(text)
            made = runs.limited(lambda: Steps(rng, script))
            break
        except (runs.module("tokens").Refusal, runs.Skipped):
            continue
    else:
        raise runs.Skipped("no script")
    for _ in range(150):
        made.follow()
    certificate, marks = runs.module("certificate"), runs.module("polynomial").classify(script)
    head = [("Nodes", len(made.uni.dag))] + [("Node", node) for node in made.uni.dag.nodes]
    head += [("Marks", len(marks))] + [("Mark", mark) for mark in marks]
    for k in range(10):
        steps = made.steps + ([made.risky()] if k else [])
        cited = [made.by_slot.get(goal.slot, [0])[-1] for goal in script.goals]
        try:
            yield text, certificate.write(
                head + steps + [("Leaf", cited), ("End",)], rng.choice([1, 2]))
        except (OverflowError, AssertionError, ValueError, IndexError):
            continue  # a number that has no room in a certificate


def compare(case, text, cert):
    found = case.agrees({"a": text, "c": cert}, ["check", "a", "c"])
    runs.same("recheck", recheck_runs.rechecked(text, cert), found[:2])
    kind = ", " + found.printed.split()[1].decode() if found.status == 5 else ""
    return "status %d%s" % (found.status, kind)


if __name__ == "__main__":
    sys.exit(runs.main(rows, compare))
