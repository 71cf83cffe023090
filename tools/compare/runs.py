"""The head of the comparisons with the reference: their words, cases, time limits and counts.

    tools/compare/NAME.py COUNT SEED [JOBS] [--program PROGRAM]

COUNT is how many cases are tried, and SEED makes them others. JOBS of them are tried at once, 2
if that isn't given. PROGRAM is the built program. If it isn't given, it is the one that `FIXPROVE`
names in the environment, and else crates/fx_main/out/fx_main. The reference is the package
`reference` of this repository.

A comparison is two functions. `rows(case)` yields what is compared in a case, as tuples, and
draws from `case.rng` alone. `compare(case, *row)` tells what is counted of a row, such as `status
0`. It raises `Differs` if something differs, mostly by `same`.

The reference may take ten seconds for a run. A run that takes longer is counted as `slow`, and
one at which it breaks down as `reference: ..` with the name of the fault. Nothing is compared
there. The built program may take 120 seconds for a run. A run that takes longer is a difference.

Prints each difference with its seed and row, how often each kind came, and how many rows were
compared and differ. The status is 0 if some were compared and none differs, 1 if one differs or
none was compared, and 2 if the words aren't as above.
"""

import collections
import contextlib
import importlib
import multiprocessing
import os
import random
import signal
import subprocess
import sys
import tempfile

# Comparisons use modules of tools/, too, and the reference beside it.
TOOLS = os.path.dirname(os.path.dirname(os.path.abspath(__file__)))
sys.path += [TOOLS, os.path.dirname(TOOLS)]

USAGE = "usage: %s %sCOUNT SEED [JOBS] [--program PROGRAM]"
BUILT = os.path.join(os.path.dirname(TOOLS), "crates", "fx_main", "out", "fx_main")
SECONDS = 10
MOST_SECONDS = 120

# What the reference answers: the status, the printed bytes, and the files that stand there then.
Answer = collections.namedtuple("Answer", "status printed files")


class Differs(Exception):
    """What differs, as a text."""


class Skipped(Exception):
    """What is counted where nothing is compared."""


class TooSlow(Exception):
    pass


def give_up(signum, frame):
    raise TooSlow


def same(what, got, wanted):
    """Raises `Differs` where the built program's answer isn't the one that is wanted."""
    if got != wanted:
        raise Differs("%s\nwanted %r\ngot    %r" % (what, wanted, got))


def module(name):
    """A module of the reference."""
    return importlib.import_module("reference." + name)


def limited(call):
    """What a call of the reference comes to, where it ends in time."""
    signal.signal(signal.SIGALRM, give_up)
    signal.alarm(SECONDS)
    try:
        return call()
    except TooSlow:
        raise Skipped("slow") from None
    except Exception as fault:
        raise Skipped("reference: %s" % type(fault).__name__) from None
    finally:
        signal.alarm(0)


def answered(files, words):
    """What the reference answers to the words in a folder with these files."""
    commands = module("commands")
    folder = commands.MemFolder(files)
    status, printed = limited(lambda: commands.Program(folder).run(words))
    return Answer(status, printed.encode("utf-8", "surrogateescape"), folder.files)


class Place:
    """A folder in which the built program runs."""

    def __init__(self, program, folder):
        self.program, self.folder = program, folder

    def write(self, name, content):
        with open(os.path.join(self.folder, name), "wb") as out:
            out.write(content)

    def read(self, name):
        """The bytes of a file, or None."""
        if not self.has(name):
            return None
        with open(os.path.join(self.folder, name), "rb") as found:
            return found.read()

    def has(self, name):
        return os.path.exists(os.path.join(self.folder, name))

    def run(self, words):
        """A run of the built program: its status, and what it printed."""
        try:
            ran = subprocess.run([self.program] + words, cwd=self.folder, capture_output=True,
                                 timeout=MOST_SECONDS)
        except subprocess.TimeoutExpired:
            raise Differs("%s: no end in %d seconds" % (" ".join(words), MOST_SECONDS)) from None
        return ran.returncode, ran.stdout + ran.stderr


class Case:
    """A case: its kind, where a comparison has several, and its random numbers."""

    def __init__(self, program, kind, seed):
        self.program, self.kind, self.rng = program, kind, random.Random(seed)

    @contextlib.contextmanager
    def place(self, files):
        """A folder with these files."""
        with tempfile.TemporaryDirectory() as folder:
            place = Place(self.program, folder)
            for name, content in files.items():
                place.write(name, content)
            yield place

    def agrees(self, files, words):
        """The reference's answer, where the built program has the same status and lines."""
        wanted = answered(files, words)
        with self.place(files) as place:
            same(" ".join(words), place.run(words), wanted[:2])
        return wanted


class Comparison:
    """What each job has of a comparison."""

    def __init__(self, program, kind, rows, compare):
        self.program, self.kind, self.rows, self.compare = program, kind, rows, compare

    def tried(self, seed):
        """What is counted of a case, how many of its rows were compared, and what differs."""
        case, counted, compared, differences = Case(self.program, self.kind, seed), [], 0, []
        try:
            for row in self.rows(case):
                try:
                    counted.append(self.compare(case, *row))
                except Skipped as kind:
                    counted.append(str(kind))
                    continue
                except Differs as what:
                    shown = "".join("%r\n" % (part,) for part in row)
                    differences.append("seed %d\n%s%s" % (seed, shown, what))
                compared += 1
        except Skipped as kind:
            counted.append(str(kind))
        return counted, compared, differences


def begin(comparison):
    """What a job does first."""
    global COMPARISON
    COMPARISON = comparison


def tried(seed):
    return COMPARISON.tried(seed)


def words_of(words, kinds):
    """Kind, program, count, seed and jobs; or None if the words aren't so."""
    words, kind, program = list(words), None, os.environ.get("FIXPROVE") or BUILT
    if "--program" in words[:-1]:
        at = words.index("--program")
        program = words[at + 1]
        del words[at:at + 2]
    if kinds:
        kind, words = (words or [None])[0], words[1:]
        if kind not in kinds:
            return None
    if len(words) not in (2, 3) or not all(word.isdecimal() for word in words):
        return None
    count, seed, jobs = [int(word) for word in words + ["2"]][:3]
    return kind, os.path.abspath(program), count, seed, max(jobs, 1)


def main(rows, compare, kinds=(), many=1):
    """Tries the cases that the words ask for; a case counts as so many of COUNT."""
    usage = USAGE % (sys.argv[0], "|".join(kinds) + " " if kinds else "")
    if sys.argv[1:] in (["--help"], ["-h"]):
        print(usage)
        return 0
    given = words_of(sys.argv[1:], kinds)
    if given is None:
        print(usage, file=sys.stderr)
        return 2
    kind, program, count, seed, jobs = given
    if not os.access(program, os.X_OK) or os.path.isdir(program):
        print("%s: %s isn't a program (./fixprove build makes it; --program names another)"
              % (sys.argv[0], program), file=sys.stderr)
        return 2
    seeds = [seed * 1000003 + k for k in range((count + many - 1) // many)]
    counts, compared, differ = collections.Counter(), 0, 0
    comparison = Comparison(program, kind, rows, compare)
    with multiprocessing.Pool(jobs, begin, (comparison,)) as pool:
        for counted, rows_compared, differences in pool.imap_unordered(tried, seeds, chunksize=4):
            counts.update(counted)
            compared += rows_compared
            differ += len(differences)
            for text in differences:
                print(text, flush=True)
    if counts:
        print(", ".join("%s: %d" % row for row in sorted(counts.items())))
    print("%d compared, %d differ" % (compared, differ))
    return 0 if compared and not differ else 1
