"""What `from_c` says of a routine, in lines and as JSON, and the folder of its scripts."""

import hashlib
import json
import os
import re
from fractions import Fraction

from assistants import write_text
from script_text import ROUND_CEILING, ROUND_FLOOR, decimal

FORMAT = "fixprove-from-c 1"
LIST = 64       # scripts of a list for `batch`, at most
WIDE = 94       # columns of a line, if its words allow it


def shown(ends, scale=1):
    """An interval in decimals, rounded outward."""
    low, high = (None if x is None else x * scale for x in ends)
    return "[%s, %s]" % ("-inf" if low is None else digits(low, ROUND_FLOOR),
                         "+inf" if high is None else digits(high, ROUND_CEILING))


def digits(x, way):
    """A fraction in decimals; whole digits are all shown."""
    return decimal(x, max(7, len(str(abs(int(x))))), way)


def folded(line):
    """A line in pieces of at most WIDE columns; intervals stay whole."""
    found, now = [], ""
    for word in re.findall(r"\s*(?:\[[^\]]*\]|\S)+", line):
        if now.strip() and len(now) + len(word) > WIDE:
            found.append(now)
            now, word = "      ", word.lstrip()
        now += word
    return found + [now]


def end_of(x, is_upper):
    """An end as JSON: exact as m * base^e, and in decimals with their direction."""
    if x is None:
        return "+inf" if is_upper else "-inf"
    near = digits(x, ROUND_CEILING if is_upper else ROUND_FLOOR)
    e = x.denominator.bit_length() - 1
    exact = Fraction(near) == x
    return {"m": str(int(x * 2 ** e)), "e": -e, "base": 2, "decimal": near,
            "direction": "exact" if exact else "up" if is_upper else "down"}


def interval_of(ends):
    return None if ends is None else {"low": end_of(ends[0], False), "high": end_of(ends[1], True)}


def sha256(name):
    with open(name, "rb") as it:
        return hashlib.sha256(it.read()).hexdigest()


class Report:
    """The lines and the status of a run. `work` is judged, or None where nothing was proved."""

    def __init__(self, work, words, trial=None, fixed=None, tried=None):
        self.work, self.words, self.trial, self.fixed, self.state = work, words, trial, fixed, tried
        differs = trial is not None and (trial.bad or trial.fault)
        self.status = 2 if differs else 1 if work.verdicts or not work.live else 0

    def line(self, what, ends, scale):
        """An interval, and once more in the unit that was asked for."""
        more = ", in all %s" % shown(ends, scale) if scale != 1 else ""
        return "%s %s%s" % (what, shown(ends), more)

    def head(self):
        """The first line."""
        work = self.work
        many, goals = len(work.paths), len(work.goals())
        return "%s: %s, %d path%s%s, %d goal%s" % (
            self.words.file, work.name, many, "s" * (many > 1), ", joined" * work.joins, goals,
            "s" * (goals > 1))

    def lines(self):
        """All lines."""
        work, words, found = self.work, self.words, [self.head()]
        for v in work.verdicts:
            found += self.verdict(v)
        if not work.live:
            found.append("  no word takes any path: the ranges or what is assumed contradict each "
                         "other")
        elif work.verdicts:
            found.append("  not proved: %d of the goals; below stands what holds as if nothing "
                         "wrapped" % len(work.verdicts))
        else:
            how = ", with --hint" if words.hint else ", with hints that are checked" \
                if work.hinted else ""
            found.append("  proved: no %soperation and no %sconversion leaves its type%s" % (
                ("other ",) * 2 + (how,) if work.meant() else ("", "", how)))
        found += ["  meant to wrap: %s: %s" % pair for pair in work.meant().items()]
        if self.state:
            found += ["  " + line for line in self.state]
        assumed = ["pointers are on different places"] * words.apart + words.assume + \
            ["hint " + h for h in words.hint if work.prover.believed]
        found += ["  assumed: %s" % text for text in assumed]
        found += ["  checked: hint %s" % h for h in words.hint if not work.prover.believed]
        if self.fixed:
            found.append("  as a fixed-point program: %s" % (
                "proved, no step wraps" if self.fixed[0] else self.fixed[1]))
        for out in work.outputs.values():
            found += self.output(out)
        found += self.tested()
        if self.status == 0:
            found.append("  rests on: %s" % self.rests())
        return [part for line in found for part in folded(line)]

    def verdict(self, v):
        """The lines of a goal that isn't proved."""
        work = self.work
        head = "%s: %s: %s" % (work.unit.place(v.goal.where.coord), v.goal.node.text, v.goal.what)
        at = ", ".join("%s = %s" % pair for pair in (v.point or {}).items()) or "each call"
        if v.word == "open" and v.point:
            return ["  OPEN  %s" % head, "    at %s it is %s; whether calls reach this state isn't "
                    "known" % (at, v.value)]
        if v.word == "open":
            path = ", path %d" % (v.path + 1) if len(work.paths) > 1 else ""
            return ["  OPEN  %s" % head, "    no word was found at which it fails, and no hints%s; "
                    "%s" % (path, v.line)]
        value = "without a value" if v.value is None else v.value
        return ["  FALSE %s" % head, "    at %s it is %s, %s;" % (at, value, v.at),
                "    the compiled C: %s" % v.seen[1]]

    def output(self, out):
        """The lines of an output."""
        scale, unit = Fraction(2) ** self.words.unit, ""
        if out.range is None:
            found = ["  %s: no range is known" % out.key]
        else:
            live = len(self.work.live)
            more = " (on %d of %d paths; on the others it isn't written)" % (out.paths, live) \
                if out.paths < live else ""
            found = ["  " + self.line("%s in" % out.key, out.range, scale) + more]
        if not out.rounds:
            return found
        inner = ""
        if out.reached:
            low, high = out.reached
            inner = "; reached: [%s, %s]" % (decimal(low, 6, ROUND_CEILING),
                                             decimal(high, 6, ROUND_FLOOR))
        if out.error is None:
            return found + ["  %s - %s: no bound is known%s" % (out.key, out.twin, inner)]
        unit = self.line("%s - %s in" % (out.key, out.twin), out.error, 1) + " units"
        if scale != 1:
            unit += ", in all %s" % shown(out.error, scale)
        clipped = " (on %d of %d paths; on the others it is constant)" % (
            out.paths - out.constant, out.paths) if out.constant else ""
        return found + ["  %s%s%s%s" % (unit, ", with hints" * out.hinted, clipped, inner)]

    def tested(self):
        trial = self.trial
        if trial is None:
            return []
        if trial.fault:
            return ["  test: the C isn't built (%s)" % trial.fault]
        return ["  test: %d words, something wraps at %d, %d differences"
                % (trial.words, trial.wrapped, len(trial.bad))] + \
            ["    " + line for line in trial.bad[:4]]

    def rests(self):
        """What a run that proves all rests on, in one line."""
        trial, words = self.trial, self.words
        test = "not tested" if trial is None else "%d words tested" % trial.words
        more = ", what is assumed" * bool(
            words.assume or words.apart or words.hint and self.work.prover.believed)
        return "%d proved scripts, the reading of the C (%s), ranges%s, gcc's shifts" % (
            len(self.work.prover.kept), test, more)

    # -- JSON

    def record(self):
        """The same as one dictionary."""
        work, words = self.work, self.words
        trial = self.trial
        return {
            "format": FORMAT, "file": {"name": words.file, "sha256": sha256(words.file)},
            "function": work.name, "status": self.status,
            "word": "proved" if self.status == 0 else "unproved" if self.status == 1 else "fault",
            "program": {"sha256": sha256(work.prover.program.path)},
            "paths": len(work.paths), "joined": work.joins, "goals": len(work.goals()),
            "ranges": {k: list(v) for k, v in sorted(work.ranges.items())},
            "unproved": [self.row(v) for v in work.verdicts],
            "outputs": [self.row_of(o) for o in work.outputs.values()],
            "fixed_point_program": None if not self.fixed else
            "proved" if self.fixed[0] else self.fixed[1],
            "meant_to_wrap": [list(pair) for pair in work.meant().items()],
            "assumed": {"claims": words.assume, "hints": words.hint, "apart": words.apart},
            "test": None if trial is None else {
                "words": trial.words, "wrapped": trial.wrapped, "differences": trial.bad,
                "fault": trial.fault},
            "scripts": sorted(work.prover.kept),
            "rests_on": self.rests() if self.status == 0 else None}

    def row(self, v):
        return {"place": self.work.unit.place(v.goal.where.coord), "text": v.goal.node.text,
                "what": v.goal.what, "word": v.word, "point": v.point,
                "value": None if v.value is None else str(v.value), "at": v.at,
                "compiled": v.seen[1] if v.seen else None, "line": v.line}

    @staticmethod
    def row_of(o):
        return {"name": o.key, "range": interval_of(o.range), "error": interval_of(o.error),
                "twin": o.twin if o.rounds else None, "paths": o.paths,
                "reached": None if o.reached is None else [str(x) for x in o.reached]}

    def write_json(self, name):
        write_text(name, json.dumps(self.record(), indent=1) + "\n")


def keep(work, folder):
    """Writes the proved scripts to a folder, with lists for `batch`; their names."""
    names = []
    for name, text in sorted(work.prover.kept.items()):
        work.prover.file(text, name)
        names.append(os.path.basename("%s_%s" % (work.name, name)))
    lists = []
    for a in range(0, len(names), LIST):
        lists.append("%s_list%s" % (work.name, "_%d" % (a // LIST + 1) if a else ""))
        write_text(os.path.join(folder, lists[-1]), "\n".join(names[a:a + LIST]) + "\n")
    return lists
