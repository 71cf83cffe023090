"""Runs of Gappa and of the program on one script, and what their lines say side by side.

`timed` runs a command and measures its processor time. `GappaAnswer` reads what Gappa printed,
`compared` sets two ends of a goal side by side as exact numbers. All ends are fractions, None for
an infinite one; times are seconds.
"""

import os
import re
import resource
import signal
import subprocess
import tempfile
import threading
from collections import namedtuple

import assistants as shared
from gappa_formula import Formula
from gappa_script import Gappa
from gappa_text import Unread

# one run: status is None where it took longer than it may; seconds of processor time
Run = namedtuple("Run", "status text seconds")
END = r"(-?(?:[0-9]+(?:b-?[0-9]+)?|inf))(?: \{[^}]*\})?"
LINE = re.compile(r"^  (.*) in \[%s, %s\]$" % (END, END))
EMPTY = "remaining results are pointless, anything can be proved."
INFINITE = float("inf")     # it compares exactly with fractions
WORDS = ("equal", "narrower", "wider", "overlapping", "disjoint")


def timed(words, seconds):
    """Runs a command for at most so many seconds of processor time, its output and errors in one.

    A second is the least limit. Thirty times as long by the clock ends a run, too.
    """
    limit = max(1, int(seconds + 0.999))
    with tempfile.TemporaryFile() as out:
        try:
            child = subprocess.Popen(words, stdin=subprocess.DEVNULL, stdout=out, stderr=out)
        except OSError as error:
            raise shared.Fault("%s: %s" % (words[0], error.strerror))
        clock = threading.Timer(30 * limit, child.kill)
        clock.daemon = True
        clock.start()
        try:
            resource.prlimit(child.pid, resource.RLIMIT_CPU, (limit, limit + 1))
            _, status, usage = os.wait4(child.pid, 0)
        except BaseException:
            child.kill()
            child.wait()
            raise
        finally:
            clock.cancel()
        code = os.WEXITSTATUS(status) if os.WIFEXITED(status) else -os.WTERMSIG(status)
        child.returncode = code     # it is waited for
        late = code in (-signal.SIGXCPU, -signal.SIGKILL)
        out.seek(0)
        text = out.read().decode("latin-1")
    return Run(None if late else code, text, usage.ru_utime + usage.ru_stime)


class GappaAnswer:
    """What Gappa answers for a text: `word` is proved, unproved, refused or late.

    `intervals` has for each ? goal, in the order of the text, a pair of ends, "empty" where
    anything can be proved, or None where no line tells it.
    """

    def __init__(self, text, run):
        self.seconds, self.intervals, self.fault = run.seconds, [], ""
        self.unmatched = []
        errors = [line for line in run.text.splitlines() if line.startswith("Error: ")]
        open_goal = any("not satisfied" in line or "no contradiction" in line for line in errors)
        if run.status is None:
            self.word = "late"
        elif run.status == 0:
            self.word = "proved"
        elif run.status == 1 and open_goal:
            self.word = "unproved"
        else:
            self.word, self.fault = "refused", (errors or ["status %s" % run.status])[0]
        if self.word in ("proved", "unproved"):
            self.read(text, run.text.splitlines())

    def read(self, text, lines):
        """Finds the goal of each line by its expression: Gappa has an order of its own."""
        asks = [goal for goal in Formula(Gappa(text)).goals if goal.ask]
        found = [match for match in (LINE.match(line) for line in lines) if match]
        pointless = any(line.strip() == EMPTY for line in lines)
        self.intervals = ["empty" if pointless else None] * len(asks)
        if not found:
            return
        claims = [goal.says + " in ?" for goal in asks] + [m.group(1) + " in ?" for m in found]
        script = Gappa(text)
        head = text[:script.open.end]
        try:
            again = Gappa(head + " /\\ ".join(claims) + " }")
        except Unread as fault:
            raise shared.Fault("a line of Gappa isn't read: %s" % fault.what)
        atoms = again.formula.parts if len(claims) > 1 else (again.formula,)
        nodes = [(atom.left, atom.right) for atom in atoms]
        for match, node in zip(found, nodes[len(asks):]):
            places = [k for k, other in enumerate(nodes[:len(asks)]) if other == node]
            for k in places:
                self.intervals[k] = tuple(shared.value_of(end) for end in match.group(2, 3))
            if not places:
                self.unmatched.append(match.group(1))


def compared(ours, other):
    """One of WORDS for the interval of ours beside another's; either may be "empty"."""
    if ours == other:
        return "equal"
    if isinstance(ours, str) or isinstance(other, str):
        # an empty interval, or one of a relative goal whose sides are 0, lies inside any
        return "narrower" if isinstance(ours, str) else "wider"
    (low, high), (below, above) = [(-INFINITE if a is None else a, INFINITE if b is None else b)
                                   for a, b in (ours, other)]
    if low > above or high < below:
        return "disjoint"
    if low >= below and high <= above:
        return "narrower"
    return "wider" if low <= below and high >= above else "overlapping"


def share(ours, other):
    """The width of ours as a share of the other's, None where that says nothing."""
    if isinstance(ours, str) or isinstance(other, str) or None in ours + other:
        return None
    wide = other[1] - other[0]
    return (ours[1] - ours[0]) / wide if wide else None


def gappa_run(gappa, name, threshold, seconds):
    """A run of Gappa on a file."""
    words = [gappa] if threshold is None else [gappa, "-Echange-threshold=%s" % threshold]
    return timed(words + [name], seconds)


def found_gappa(name):
    """The path of Gappa, which is to be there; raises Fault with how to get it."""
    for folder in [""] if os.sep in name else os.environ.get("PATH", "").split(os.pathsep):
        path = os.path.join(folder, name)
        if os.path.isfile(path) and os.access(path, os.X_OK):
            return path
    raise shared.Fault("%s isn't there: on Debian `apt-get install gappa` gets it "
                       "(--gappa FILE names another)" % name)
