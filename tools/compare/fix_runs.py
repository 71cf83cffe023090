#!/usr/bin/env python3
"""What `fix` makes of random fixed-point programs: status, line and script.

    tools/compare/fix_runs.py COUNT SEED [JOBS] [--program PROGRAM]

Words and counts are those of runs.py. Fixed-point programs are random, whole and damaged. No
script may stand where the reference makes none. A script that was made is proved with few rounds,
and the lines are compared. Where it is proved, the reference makes some runs on words in range:
none wraps, and values lie in the printed intervals.
"""

import random
import re
import sys
from fractions import Fraction

import runs
import script_text
import texts

WORDS = [b"!", b":", b";", b",", b"[", b"]", b"=", b"+", b"-", b"*", b">>", b"<<", b"in", b"out",
         b"not", b"dn", b"ff", b"s16.15", b"u0.0", b"u61.0", b"s60.61", b"s0016.015", b"16.15",
         b"0", b"1e9", b"1e-99", b"64", b"x", b"y", b" ", b"\n", b"#", b"\xff", b"\xc3\xa9",
         b"\x00"]
NUMBERS = ["0", "1", "2", "0.5", "0.25", "3b-4", "0.1", "1.25", "100", "0x1.8p1", "1e-3"]
SPACES = ["", " ", " ", "  ", "\n", " # here\n"]
SHORT = ["--rounds", "7", "--depth", "0", "--boxes", "8"]


class ProgramMaker(texts.Maker):
    """A random fixed-point program, as the text of a file."""

    def __init__(self, rng):
        super().__init__(rng)
        self.names = []

    def name(self):
        if self.names and self.maybe(0.01):
            return self.pick(self.names)
        letters = self.pick(["x", "y", "acc", "t_", "fixed1", "q" * self.pick([1, 31, 32, 33])])
        return "%s%d" % (letters, len(self.names)) if len(letters) < 31 else letters

    def format(self):
        width = self.pick([1, 8, 16, 16, 18, 24, 32, 32, 40, 60])
        fraction = self.pick([0, 4, 8, 12, 15, 15, 16, 30])
        if self.maybe(0.02):
            width, fraction = self.pick([(0, 0), (61, 0), (8, 61), (60, 60), (1, 60)])
        return self.pick("ssu"), width, fraction

    def written(self, kind, width, fraction):
        zeros = "0" * self.pick([0, 0, 0, 0, 2])
        return "%s%s%d.%s%d" % (kind, zeros, width, zeros, fraction)

    def bound(self, low, high, fraction):
        """A number of the format, or one between two of them, or perhaps one outside."""
        if self.maybe(0.02):
            low, high = 2 * low - 3, 2 * high + 3
        word = self.rng.randint(low, high)
        if self.maybe(0.5):
            sign = "-" if word < 0 else self.pick(["", "", "+"])
            return word, "%s%db-%d" % (sign, abs(word), fraction)
        text = "%.6f" % (word / 2 ** min(fraction, 900))
        return word, text if abs(word) < 2 ** 80 else "1"

    def input(self):
        kind, width, fraction = self.format()
        name = self.name()
        low, high = 0, 2 ** width - 1
        if kind == "s" and width:
            low, high = -2 ** (width - 1), 2 ** (width - 1) - 1
        ends = [self.bound(low, high, fraction) for _ in range(2)]
        if self.maybe(0.97):
            ends.sort()
        self.names.append(name)
        form = self.written(kind, width, fraction)
        return ["in", name, ":", form, "[", ends[0][1], ",", ends[1][1], "]", ";"]

    def operand(self):
        if self.names and self.maybe(0.8):
            return self.pick(self.names)
        return "lost" if self.maybe(0.02) else self.pick(NUMBERS)

    def step(self):
        way = self.rng.randrange(7)
        if way == 0:
            operation = [self.operand()]
        elif way == 1:
            operation = ["-", self.operand()]
        elif way < 5:
            operation = [self.operand(), self.pick("+-*"), self.operand()]
        else:
            places = self.pick([0, 1, 2, 3, 5, 8, 15, 63])
            operation = [self.operand(), self.pick([">>", "<<"]), str(places)]
        name = self.name()
        form = self.written(*self.format())
        self.names.append(name)
        return [name, ":", form, self.pick(texts.DIRECTIONS), "=", *operation, ";"]

    def output(self):
        known = self.names and self.maybe(0.98)
        return ["out", self.pick(self.names) if known else "lost", ";"]

    def tokens(self):
        tokens = []
        for _ in range(self.pick([0, 1, 1, 2, 2, 3, 5])):
            tokens += self.input()
        for _ in range(self.pick([0, 1, 2, 3, 5, 8])):
            tokens += self.step()
        for _ in range(self.pick([0, 1, 1, 1, 2, 3] if self.maybe(0.1) else [1, 1, 2, 3])):
            tokens += self.output()
        return tokens

    def text(self):
        text = ""
        for token in self.tokens():
            # two words of letters and digits need a blank between them
            between = self.pick(SPACES)
            if not between and text and re.fullmatch(r"\w", text[-1]) and re.match(r"\w", token):
                between = " "
            text += between + token
        return text.encode()


def rows(case):
    text = ProgramMaker(case.rng).text()
    seed = case.rng.getrandbits(30)
    yield text, seed
    for _ in range(2):
        yield texts.damaged(case.rng, text, WORDS), seed


def ranges_of(made):
    """For each input its name, and the least and the greatest word."""
    ranges = []
    for name, form, low, high in made.inputs:
        unit = Fraction(1, 2 ** form.f)
        ranges.append((name, -(-low.value // unit), high.value // unit))
    return ranges


def run_values(text, seed):
    """What some runs of the fixed-point program come to, by the reference."""
    reader, rng = runs.module("program"), random.Random(seed)
    made = reader.parse(text)
    ranges = ranges_of(made)
    if any(low > high for _, low, high in ranges):
        return []
    found = []
    for _ in range(20):
        words = {name: rng.choice([low, high, rng.randint(low, high)])
                 for name, low, high in ranges}
        found.append(reader.execute(made, words))
    return found


def lie(found, lines):
    """Raises `Differs` where a run wraps, or has a value outside the lines' intervals."""
    for values in found:
        if isinstance(values, str):
            raise runs.Differs("a run wraps: %s" % values)
        for line in lines.decode().splitlines():
            name, low, high = re.fullmatch(r"(\w+) in \[(\S+), (\S+)\]", line).groups()
            if not script_text.value_of(low) <= values[name] <= script_text.value_of(high):
                raise runs.Differs("%s is %s, and the line is %s" % (name, values[name], line))


def compare(case, text, seed):
    words = ["fix", "p", "s"]
    wanted = runs.answered({"p": text}, words)
    script = wanted.files.get("s")
    with case.place({"p": text}) as place:
        runs.same("fix", place.run(words), wanted[:2])
        runs.same("the script", place.read("s"), script)
    kind = "status %d" % wanted.status
    if wanted.status == 9:
        return kind + ", " + wanted.printed.split()[1].decode()
    if script is None:
        return kind
    try:
        proved = case.agrees({"s": script}, ["prove", "s"] + SHORT)
    except runs.Skipped as why:
        return "%s, %s" % (kind, why)
    if proved.status == 0 and b"empty" not in proved.printed:
        lie(runs.limited(lambda: run_values(text, seed)), proved.printed)
    return "%s, proved %d" % (kind, proved.status)


if __name__ == "__main__":
    sys.exit(runs.main(rows, compare))
