"""What the assistants share: scripts and decimals (script_text.py), runs of the program, words."""

import argparse
import itertools
import os
import re
import subprocess
import sys
import tempfile
from fractions import Fraction

import about as version_of
from script_text import (  # noqa: F401
    ROUND_CEILING,
    ROUND_FLOOR,
    ROUND_HALF_EVEN,
    Claim,
    Fault,
    Hint,
    Script,
    children,
    decimal,
    decimals,
    literal_value,
    near,
    rounded,
    tokens_of,
    value_of,
)

TOP = os.path.dirname(os.path.dirname(os.path.abspath(__file__)))
BUILT = os.path.join(TOP, "crates", "fx_main", "out", "fx_main")


def built():
    """The name of the built program: the environment's FIXPROVE if it is set, else ./fixprove's."""
    return os.environ.get("FIXPROVE") or BUILT


class Words(argparse.ArgumentParser):
    """The command line of a tool; what is wrong with it is said in one line."""

    def __init__(self, about):
        argparse.ArgumentParser.__init__(
            self, prog=os.path.basename(sys.argv[0]), description=about, allow_abbrev=False
        )
        version_of.add_version(self)

    def error(self, message):
        raise Fault(message + " (--help tells the words)")

    def runs(self, *options):
        """Adds --program and the options of runs that are named."""
        self.add_argument(
            "--program",
            default=built(),
            metavar="FILE",
            help="the built program, if it is another than ./fixprove's or that of the "
            "environment's FIXPROVE",
        )
        for name in options:
            self.add_argument("--" + name, type=int, metavar="N", help="as of `fixprove prove`")


def ran(main):
    """Runs a tool's `main(words)` and ends as it says: 2 and one line where it couldn't do its
    work."""
    try:
        if sys.stdout is None:
            raise Fault("standard output is closed")
        status = main(sys.argv[1:])
        sys.stdout.flush()
    except Fault as fault:
        sys.stderr.write("%s: %s\n" % (os.path.basename(sys.argv[0]), fault))
        status = 2
    except OSError as error:
        # standard output is closed or full; what is still to be written there goes nowhere
        os.dup2(os.open(os.devnull, os.O_WRONLY), sys.stdout.fileno())
        if not isinstance(error, BrokenPipeError):
            sys.stderr.write("%s: %s\n" % (os.path.basename(sys.argv[0]), error.strerror))
        status = 2
    except KeyboardInterrupt:
        status = 130
    sys.exit(status)


# ---- files and words


def read_bytes(name):
    """A file's bytes; a Fault names the file and what is wrong with it."""
    try:
        with open(name, "rb") as file:
            return file.read()
    except OSError as error:
        raise Fault("%s: %s" % (name, error.strerror))


def read_text(name):
    """A script's text with one character a byte, so that places are bytes."""
    return read_bytes(name).decode("latin-1")


def write_text(name, text):
    """Writes a text of one character a byte; a Fault names the file and what is wrong with it."""
    try:
        with open(name, "w", encoding="latin-1", newline="") as file:
            file.write(text)
    except OSError as error:
        raise Fault("%s: %s" % (name, error.strerror))


def unit_of(text):
    """A unit's value: 1 where none is given; else that of a literal such as 1b-15, or of 2^-15."""
    if text is None:
        return Fraction(1)
    power = re.match(r"2\^(-?[0-9]{1,3})$", text)
    if power:
        return Fraction(2) ** int(power.group(1))
    if not re.match(
        r"(0x[0-9a-fA-F]+(\.[0-9a-fA-F]+)?(p[+-]?[0-9]{1,3})?"
        r"|[0-9]{1,30}b[+-]?[0-9]{1,3}|[0-9]{1,30}(\.[0-9]{1,30})?(e[+-]?[0-9]{1,3})?)$",
        text,
    ):
        raise Fault("--unit %s: a unit is a number such as 1b-15, 2^-15 or 0.001" % text[:40])
    value = literal_value(text)
    if not value:
        raise Fault("--unit %s: a unit is above 0" % text[:40])
    return value


def read_script(program, name, text):
    """The Script of a text, if the program takes it; else a Fault with its refusal's place."""
    answer = program.prove(text, ["--rounds", "1", "--depth", "0", "--workers", "1"])
    if answer.status == 3:
        raise Fault("%s: %s (tools/explain tells more)" % (name, " ".join(answer.lines)))
    return Script(text)


# ---- runs of the program

LINE = re.compile(r"^(.*) in (?:\[(\S+), (\S+)\]|(empty|none))$")
OPEN = re.compile(r"^unproved: goal (\d+) at (?:case (\d+), )?(.*)$")
ASSUMED = re.compile(r"^hint (\d+) assumed$")
RANGE = re.compile(r"(\w+) in \[(\S+), (\S+)\]")


class Answer:
    """What a run printed, and its status."""

    def __init__(self, status, lines):
        self.status, self.lines = status, lines
        self.intervals = (
            []
        )  # of each goal: a pair of fractions (None: infinite), or "empty" or "none"
        self.assumed = []  # numbers of the assumed hints, among those with ->, from 1
        self.goal = self.case = self.box = None
        for line in lines:
            match = LINE.match(line) if status == 0 else OPEN.match(line)
            if status == 0 and match:
                ends = match.group(4) or (value_of(match.group(2)), value_of(match.group(3)))
                self.intervals.append(ends)
            elif status == 0 and ASSUMED.match(line):
                self.assumed.append(int(ASSUMED.match(line).group(1)))
            elif status == 1 and match:
                self.goal, self.case, self.box = (
                    int(match.group(1)),
                    int(match.group(2) or 1),
                    match.group(3),
                )


class Program:
    """The built program, and a folder for the texts that it reads; both are left as they were."""

    def __init__(self, path):
        if not os.path.isfile(path) or not os.access(path, os.X_OK):
            what = "can't be run" if os.path.exists(path) else "is missing"
            raise Fault(
                "the program isn't built: %s %s (./fixprove build makes it; --program FILE or the "
                "environment's FIXPROVE names another)" % (path, what)
            )
        self.path, self.runs = os.path.abspath(path), itertools.count(1)

    def __enter__(self):
        self.folder = tempfile.TemporaryDirectory(prefix="fixprove-")
        if self.prove("{ 3 in ? }").lines != ["3 in [3, 3]"]:
            self.folder.cleanup()
            raise Fault("%s doesn't answer as fixprove does" % self.path)
        return self

    def __exit__(self, *_):
        self.folder.cleanup()

    def run(self, words, seconds=None):
        """Status and lines of one run; None where it takes longer than `seconds`."""
        try:
            done = subprocess.run(
                [self.path] + words,
                stdout=subprocess.PIPE,
                stderr=subprocess.STDOUT,
                timeout=seconds,
                stdin=subprocess.DEVNULL,
            )
        except subprocess.TimeoutExpired:
            return None
        except OSError as error:
            raise Fault("%s: %s" % (self.path, error.strerror))
        return Answer(done.returncode, done.stdout.decode("latin-1").splitlines())

    def prove(self, text, options=(), seconds=None):
        """What `prove` answers for a text."""
        name = os.path.join(self.folder.name, "%d.fx" % next(self.runs))
        write_text(name, text)
        answer = self.run(["prove", name] + list(options), seconds)
        os.unlink(name)
        return answer


def options_of(words, *names, **given):
    """The options of a run that were given, and `given` for those that weren't."""
    found = []
    for name in names:
        number = getattr(words, name, None)
        number = given.get(name) if number is None else number
        if number is not None:
            found += ["--" + name, str(number)]
    return found
