#!/usr/bin/env python3
"""What `at` says of random points of random scripts: status and lines.

    tools/compare/at_runs.py COUNT SEED [JOBS] [--program PROGRAM]

Words and counts are those of runs.py. Scripts are engineers' and others, some damaged. Of each
there are some points in its ranges and some outside, as numbers, as quotients and with long
literals. Some have entries missing, twice or of no variable; some are damaged. Where a point
meets its script, and the built program proves that with few rounds, each value has to lie in its
printed interval.
"""

import re
import sys
from fractions import Fraction

import runs
import script_text
import texts

SHORT = ["--rounds", "7", "--depth", "2", "--boxes", "64"]
WORDS = [b"!", b"=", b";", b"/", b"-", b"+", b"0", b"1e9", b"1e-99", b"1b513", b"0.0", b"x", b"y",
         b"in", b"fixed", b" ", b"\n", b"#", b"\xff", b"\xc3\xa9", b"\x00"]
SPACES = ["", " ", " ", "\n", " # here\n"]


def value_text(rng, value):
    """The fraction as an entry's value, or 1 where a literal has no room for it."""
    sign, size = "-" if value < 0 else rng.choice(["", "", "+"]), abs(value)
    over = size.denominator
    if len(str(size.numerator)) > 30 or len(str(over)) > 30:
        return "1"
    if over & over - 1 == 0 and over.bit_length() <= 512 and rng.random() < 0.7:
        return "%s%db-%d" % (sign, size.numerator, over.bit_length() - 1)
    whole = "%s%d" % (sign, size.numerator)
    if over == 1:
        return whole
    return "%s%s/%s%d" % (whole, rng.choice(SPACES), rng.choice(SPACES), over)


def any_value(rng):
    """A value of no range in particular."""
    more = ["1e-99", "0x1.8p600", "7b-300"]
    numbers = texts.SMALL if rng.random() < 0.7 else texts.NUMBERS + more
    text = rng.choice(["", "-", "+"]) + rng.choice(numbers)
    return text if rng.random() < 0.7 else text + " / " + rng.choice(numbers)


def point_of(rng, names, point):
    """A point's text: an entry for each name, or nearly."""
    entries = []
    for name in names:
        if rng.random() < 0.97:
            known = name in point and rng.random() < 0.95
            entries.append((name, value_text(rng, point[name]) if known else any_value(rng)))
    if entries and rng.random() < 0.03:
        entries.append((rng.choice(entries)[0], any_value(rng)))
    if rng.random() < 0.03:
        entries.append((rng.choice(["lost", "d0", "x1", "FIX"]), "1"))
    rng.shuffle(entries)
    text = ""
    for name, of in entries:
        text += "".join(rng.choice(SPACES) + part for part in (name, "=", of, ";"))
    return (text + rng.choice(SPACES)).encode()


def names_in(text):
    """The script's variables, or None where it is refused."""
    try:
        return [name for name, _ in runs.module("parser").parse(text).variables]
    except runs.module("tokens").Refusal:
        return None


def points_in(text, count, seed):
    """Points in the script's ranges, as {name: fraction}; none where the text is no script."""
    try:
        return list(script_text.Script(text.decode()).points(count, seed))
    except Exception:  # (the reading is for texts that the built program takes)
        return []


def rows(case):
    rng = case.rng
    text = texts.any_text(rng)
    names = runs.limited(lambda: names_in(text))
    if names is None:
        yield text, b"x = 1;"
        return
    for point in points_in(text, 4, rng.getrandbits(30)) + [{}, {}]:
        found = point_of(rng, names, point)
        yield text, found
        if rng.random() < 0.5:
            yield text, texts.damaged(rng, found, WORDS)


def lies(shown, line):
    """Whether the value that `at` shows of a goal lies in what `prove` prints of it."""
    value, ends = shown.partition(", ")[0], line.rpartition(" in ")[2]
    if value == "no value" or ends == "empty":
        return False
    if value == "zero" or ends == "none":
        return value == "zero" and (ends == "none" or "[" in ends)
    low, high = (script_text.value_of(end) for end in ends.strip("[]").split(", "))
    return (low is None or low <= Fraction(value)) and (high is None or Fraction(value) <= high)


def are_held(said, proved):
    """Whether all goals of a point that meets hold, with values in the script's lines."""
    goals = [line.partition(": ")[2] for line in said.decode().splitlines()
             if line.startswith("goal ")]
    lines = [line for line in proved.decode().splitlines()
             if not re.fullmatch(r"hint \d+ assumed", line)]
    return (len(goals) == len(lines) and not any("fails" in goal for goal in goals)
            and all(map(lies, goals, lines)))


def kind_of(status, printed):
    """What is counted of an answer."""
    words, places = printed.decode().split(), {0: -1, 10: 1, 11: 2}
    return "status %d" % status + (", " + words[places[status]] if status in places else "")


def compare(case, text, point):
    words = ["at", "a", "p"]
    wanted = runs.answered({"a": text, "p": point}, words)
    kind = kind_of(*wanted[:2])
    with case.place({"a": text, "p": point}) as place:
        runs.same("at", place.run(words), wanted[:2])
        if kind != "status 0, meets":
            return kind
        status, proved = place.run(["prove", "a"] + SHORT)
    if status != 0:
        return kind
    if not are_held(wanted.printed, proved):
        raise runs.Differs("at    %r\nprove %r" % (wanted.printed, proved))
    return kind + ", proved"


if __name__ == "__main__":
    sys.exit(runs.main(rows, compare))
