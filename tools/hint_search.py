"""The search of `hints`: sets of hints that the program checks, the best set, and what of it is
needed."""

import math
import sys
import time
from concurrent.futures import ThreadPoolExecutor

import assistants as shared
from hint_corners import Corners, shortened
from hint_texts import TooLong
from hint_steps import Steps

FIRST = (
    "error_expansion",
    "quotients",
    "first_of_sum",
    "local_twin",
    "negated_square",
    "reversed_difference",
    "turned_pair",
    "relative_quotient",
    "mediant",
    "difference_over_sum",
    "product_over_sum",
    "completed_square",
    "steps",
    "powers_of_two",
    "whole_quotient",
    "cancelled",
)
# the share of the `?` goals' widths that is left, at most: by a set of hints, by splits besides,
# without
# one hint of the set
WORTH, WORTH_OF_SPLITS, WORTH_OF_ONE = 0.99, 0.8, 0.999
# hints that a script may have; how often ranges are asked again for corner forms
MOST, RANGINGS = 64, 4


class Late(Exception):
    """The seconds are up."""


class Search:
    """The search over one script, with some of its goals. `ends` is the time at which it ends;
    reducing what was found may take until `last`."""

    def __init__(self, script, program, words, ends, last=None, goals=None):
        self.script, self.program, self.words, self.ends = script, program, words, ends
        self.last = ends if last is None else last
        self.goals = script.goals if goals is None else goals
        self.given = [h.text for h in script.hints]
        self.rounds, self.answers, self.unchecked = 64, {}, {}
        # `latest` is what `among` has found, `word` says how the script was rewritten
        self.latest, self.tried, self.word = None, [], None
        self.runs = 0

    # ---- runs

    def run(self, text, options):
        """What the program answers for a text; Late if the seconds are up."""
        left = self.ends - time.time()
        answer = self.program.prove(text, options, left) if left > 0 else None
        if answer is None:
            raise Late
        self.runs += 1
        return answer

    def prove(self, hints, rounds=None):
        """What the program answers with further hints."""
        key = tuple(hints), rounds
        if key not in self.answers:
            options = shared.options_of(self.words, "depth", "boxes")
            options += ["--workers", "1", "--rounds", str(rounds or self.rounds)]
            goals, given = [goal.text for goal in self.goals], self.given + list(hints)
            self.answers[key] = self.run(self.script.written(goals=goals, hints=given), options)
        return self.answers[key]

    def width(self, answer):
        """How wide the `?` goals are together, as a sum of logarithms; infinite if the script isn't
        proved."""
        if answer.status != 0:
            return math.inf
        total = 0.0
        for goal, interval in zip(self.goals, answer.intervals):
            if goal.ask and not isinstance(interval, str):
                wide = interval[1] - interval[0]
                ends = wide.numerator, wide.denominator
                total += -2000.0 if wide == 0 else math.log2(ends[0]) - math.log2(ends[1])
        return total

    def checked(self, hints, most=MOST):
        """Those of the hints that the program takes and checks; with --assumed those that it
        takes."""
        hints = list(hints)[: most - len(self.given)]
        before = [h.text for h in self.script.hints if h.kind in ("rewrite", "like")]
        known = sum(1 for h in self.script.hints if h.kind == "rewrite")
        while hints:
            text = self.script.written(goals=["0 in ?"], hints=before + hints)
            answer = self.run(text, ["--workers", "1"])
            if answer.status == 0:
                rewrites = [h for h in hints if " -> " in h]
                bad = [rewrites[k - known - 1] for k in answer.assumed if k > known]
                for hint in bad:
                    self.unchecked.setdefault(hint, None)
                return hints if self.words.assumed else [h for h in hints if h not in bad]
            hints.remove(max(hints, key=len))
        return hints

    def taken(self, hints):
        """The answer with these hints, the longest left out while the script is refused or too
        large with them."""
        hints = list(hints)
        while True:
            answer = self.prove(hints)
            if answer.status in (0, 1) or not hints:
                return hints, answer
            if answer.status == 4 and "boxes" in answer.lines[0]:
                return hints, answer
            hints.remove(max(hints, key=len))

    def ranges(self, texts, hints):
        """What is known of the expressions with these hints: {text: (low, high)}, finite ones
        alone."""
        asked, found = list(texts), {}
        while asked:
            goals = ["%s in ?" % text for text in asked]
            text = self.script.written(goals=goals, hints=self.given + list(hints))
            answer = self.run(text, ["--workers", "1", "--rounds", str(self.rounds)])
            if answer.status == 1:
                del asked[answer.goal - 1]
                continue
            if answer.status == 0:
                found = dict(zip(asked, answer.intervals))
            break
        return {
            text: interval
            for text, interval in found.items()
            if not isinstance(interval, str) and None not in interval and interval[0] < interval[1]
        }

    # ---- the strategy

    def cornered(self, patterns, targets, hints, fixed=()):
        """Corner forms of the targets, by ranges that are known with the hints; these become
        narrower with the forms of other targets, so that they are asked again."""
        made, given = {}, patterns.script.ranges()
        for _ in range(RANGINGS):
            texts = {}
            for _, p in targets:
                texts.update(patterns.wanted(p))
            known, ranges = (
                self.ranges(sorted(set(texts.values())), hints + list(made.values())),
                {},
            )
            for atom, text in texts.items():
                if text in given and given[text][0] < given[text][1]:
                    ranges[atom] = given[text]
                elif text in known:
                    low, high = known[text]
                    ranges[atom] = shortened(low, False), shortened(high, True)
            new = patterns.corner_hints(targets, ranges)
            if new == made:
                break
            made = new
            served = self.checked(hints + list(made.values()))
            made = {key: hint for key, hint in made.items() if hint in served}
        return [hint for hint in made.values() if hint not in hints]

    def candidates(self):
        """Sets of hints without splits, in the order in which they are tried."""
        yield []
        goals = [goal.left for goal in self.goals]
        steps, patterns = Steps(self.script), Corners(self.script)
        pairs = patterns.pair_hints(goals)
        first = self.checked(steps.all_of(*FIRST))
        say("%d hints by the first patterns are checked" % len(first))
        yield first
        near = self.joined(first, [hint for _, _, hint in pairs])
        if near != first:
            say("%d by known pairs" % (len(near) - len(first)))
            yield near
        corners = self.cornered(patterns, patterns.targets(pairs, goals), near)
        if corners:
            say("%d by corners" % len(corners))
            near = self.joined(near, corners)
            yield near
        twins = self.joined(first, steps.all_of("whole_twin"))
        if twins != first:
            if near != first:
                yield self.joined(near, [hint for hint in twins if hint not in first])
            yield twins
        whole = self.joined(twins, steps.all_of("collected"))
        if whole != twins:
            yield whole

    def joined(self, known, hints):
        """The set with those of further hints that are checked."""
        return known + [hint for hint in self.checked(known + hints) if hint not in known]

    def splits(self):
        """Hints that split boxes, each a list."""
        patterns = Steps(self.script)
        names, found = patterns.uses(), []
        bounded = [goal for goal in self.goals if not goal.ask]
        kinds = {h.kind for h in self.script.hints}
        if bounded and self.prove([]).status and "halve" not in kinds:
            says = patterns.text(bounded[0].left, 0, True)
            for count in (1, 2):
                if count <= len(names):
                    found.append(["%s $ %s;" % (says, ", ".join(names[:count]))])
        if not kinds & {"cut", "halve"}:
            found += [["$ %s in 64;" % name] for name in names[:3]]
            found += [["$ %s in 16;" % name for name in names[:2]]] if len(names) > 1 else []
        return found

    def sets(self, against=None, settles=False):
        """The best set of hints without splits: (width, hints), or nothing if none serves more than
        `against`, the width that is to be beaten (that of the script itself if it isn't given). If
        it `settles`, the first set that proves the script is enough."""
        before = self.width(self.prove([])) if against is None else against
        found = None
        for hints in self.candidates():
            self.tried.append(hints)
            found = self.among([hints], found, before, WORTH)
            if found and settles:
                break
        return found

    def splits_of(self, found, against, worth=WORTH_OF_SPLITS):
        """The best set with splits: (width, hints), or nothing if none serves more. Splits are
        tried on what `sets` found, reduced already, and the best one then on the largest sets
        tried; if nothing was found, on these and on the first ones."""
        before, sets = found[0] if found else against, self.tried
        bases = [found[1]] if found else sets[1:2] + sets[-1:] if len(sets) > 2 else sets[-1:]
        splits = self.splits()
        tried = [hints + split for split in splits for hints in bases]
        more = self.among(tried, found, before, worth)
        finer = [self.finer(hints) for hints in tried if self.finer(hints)]
        finer = [hints for hints in finer if self.served(self.coarser(hints), before)]
        more = self.among(finer, more, before, WORTH)
        largest = [s for s in sets if not any(set(s) < set(other) for other in sets)]
        if found and splits:
            widths = [
                (self.width(self.prove(found[1] + split)), k) for k, split in enumerate(splits)
            ]
            best = splits[min(widths)[1]]
            more = self.among([hints + best for hints in largest], more, before, worth)
        return None if more == found else more

    @staticmethod
    def finer(hints):
        """The set with two cuts in 32 pieces for such in 16; nothing for another set."""
        cuts = [hint for hint in hints if hint.endswith(" in 16;") and hint.startswith("$ ")]
        rest = [hint for hint in hints if hint not in cuts]
        return (
            rest + [cut.replace(" in 16;", " in 32;") for cut in cuts] if len(cuts) == 2 else None
        )

    @staticmethod
    def coarser(hints):
        """The set of which `finer` made this one."""
        return [h.replace(" in 32;", " in 16;") if h.startswith("$ ") else h for h in hints]

    def served(self, hints, base):
        """Whether a set that was tried narrows what its base gives by a twentieth, or proves what
        it doesn't."""
        answer = self.answers.get((tuple(hints), None))
        return answer is not None and self.width(answer) < min(base, 1e9) + math.log2(0.95)

    def known_point(self, hints):
        """Whether each `?` goal is known as one number, so that nothing is left to be looked
        for."""
        answer = self.prove(hints)
        return answer.status == 0 and all(
            isinstance(i, str) or i[0] == i[1] for i in answer.intervals
        )

    def among(self, sets, found, before, worth):
        """The best of the sets, or what was found before; the first that proves the script where
        goals have bounds."""
        self.latest = found
        with ThreadPoolExecutor(self.words.jobs) as pool:
            for begin in range(0, len(sets), self.words.jobs):
                for hints, answer in pool.map(self.taken, sets[begin : begin + self.words.jobs]):
                    width = self.width(answer)
                    now = before if self.latest is None else self.latest[0]
                    say(
                        "%d hints: %s"
                        % (len(hints), answer.lines[0] if answer.status else "proved")
                    )
                    better = now == math.inf or width < now + math.log2(worth)
                    if width < math.inf and better:
                        self.latest = width, hints
                if self.latest and before == math.inf and not all(goal.ask for goal in self.goals):
                    break
        return self.latest

    def least(self, width, hints):
        """Leaves out what nothing is lost without: parts of the set first, then each hint, the
        longest first. Nothing is given back if that can't be done in time."""
        self.ends = max(self.ends, self.last)
        try:
            hints, size = sorted(hints, key=len, reverse=True), (len(hints) + 1) // 2
            while size and hints:
                begin = 0
                while begin < len(hints):
                    fewer = hints[:begin] + hints[begin + size :]
                    if self.width(self.prove(fewer)) <= width - math.log2(WORTH_OF_ONE):
                        hints = fewer
                    else:
                        begin += size
                size = 0 if size == 1 else (size + 1) // 2
            return hints, self.prove(hints)
        except Late:
            say("the seconds are up before what was found was reduced; more --seconds are needed")
            return None

    def reasons(self, most=3):
        """Why hints that were proposed aren't checked: [(hint, sentence)]."""
        found = []
        for hint in list(self.unchecked)[:most]:
            try:
                script = shared.Script(self.script.written(hints=self.given + [hint]))
                found.append((hint, script.judged(script.hints[-1])))
            except (shared.Fault, TooLong, ArithmeticError):
                continue
        return found


def say(line):
    """A line of progress, on standard error."""
    sys.stderr.write("hints: %s\n" % line)
