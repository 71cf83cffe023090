"""Runs of the program over the scripts of a path, and which scripts are kept."""

import os
import re
import subprocess
import sys

import assistants as shared
from c_nodes import computed
from c_scripts import atom, claim_of, conditions, joins_of, room, script
from c_hints import own_hints

TOOLS = os.path.dirname(os.path.abspath(__file__))
LINE = re.compile(r" in (?:\[(\S+), (\S+)\]|(empty|none))$")
OPTIONS = ["--rounds", "64", "--workers", "1"]


class Prover:
    """Scripts of one routine in a folder, and the program that judges them. `kept` are the proved
    ones, {name: text}; each can be proved again by `batch` with 64 rounds."""

    def __init__(self, folder, name, program, unit, assumed=(), hints=()):
        self.folder, self.name, self.program, self.unit = folder, name, program, unit
        self.assumed, self.given = list(assumed), list(hints)
        self.kept, self.answers, self.runs = {}, {}, 0
        self.believed = False       # whether a hint was met that the program doesn't check

    # -- runs

    def file(self, text, name):
        """Writes a file of the folder; its name."""
        name = os.path.join(self.folder, "%s_%s" % (self.name, name))
        shared.write_text(name, text)
        return name

    def place(self, where):
        """Line and column of the C, or also the file if it is another one."""
        name, line, column = self.unit.place(getattr(where, "coord", where)).rsplit(":", 2)
        here = name == os.path.basename(self.unit.path)
        return "%s:%s" % (line, column) if here else "%s:%s:%s" % (name, line, column)

    def run(self, *words):
        """Status and lines of a run."""
        self.runs += 1
        done = subprocess.run([self.program.path] + list(words), stdout=subprocess.PIPE,
                              stderr=subprocess.STDOUT, stdin=subprocess.DEVNULL, check=False)
        return done.returncode, done.stdout.decode("latin-1").splitlines()

    def prove(self, text, name, keep=True):
        """Status and lines of `prove`. What rests on a hint that isn't checked isn't proved, but
        for hints of the command line."""
        if text not in self.answers:
            status, lines = self.run("prove", self.file(text, name), *OPTIONS)
            assumed = [x for x in lines if re.match(r"hint \d+ assumed", x)]
            self.believed = self.believed or bool(assumed)
            if assumed and not self.given:
                status, lines = 1, ["unproved: " + assumed[0]]
            self.answers[text] = status, [x for x in lines if not x.startswith("hint ")]
        status, lines = self.answers[text]
        if status == 0 and keep:
            self.kept[name] = text
        return status, lines

    def script(self, path, claims, branch=None, hints=(), conds=(), errors=None, joins=()):
        """A script over a path, its branch, and further conditions."""
        return script(path, claims, conditions(path, branch) + list(conds), self.place,
                      self.assumed, list(hints) + self.given, errors, joins)

    def hinted(self, text, name, seconds):
        """What `prove` answers with hints that tools/hints finds; nothing if there are none."""
        made = os.path.join(self.folder, "%s_hinted_%s" % (self.name, name))
        tool = os.path.join(TOOLS, "hints")
        if not os.path.exists(tool) or seconds < 1:
            return None
        if os.path.exists(made):
            os.unlink(made)
        subprocess.run([sys.executable, tool, self.file(text, name), "--program",
                        self.program.path, "--seconds", str(int(seconds)), "--jobs", "1",
                        "--write", made],
                       stdout=subprocess.DEVNULL, stderr=subprocess.DEVNULL, check=False)
        if not os.path.exists(made):
            return None
        status, lines = self.prove(shared.read_text(made), name)
        return lines if status == 0 else None

    def point(self, path, point, text):
        """The file of a point, for `at`: the words that a script has. Nothing if one has no value,
        as an entry past its table."""
        words = set(re.findall(r"\w+", re.sub("#.*", "", text)))
        some = {i.node.name: computed(i.node, point, {}) for i in path.inputs.values()
                if i.node.name in words}
        if None in some.values():
            return None
        return self.file("".join("%s = %d;\n" % pair for pair in some.items()), "at.point")

    def at(self, path, point, text):
        """The lines of `at` for a script at a point of a path; none if the point has no values."""
        file = self.point(path, point, text)
        return self.run("at", self.file(text, "at.fx"), file)[1] if file else []

    # -- goals

    def empty(self, path, branch=None):
        """Whether the program says that no word meets the conditions."""
        if not conditions(path, branch) and not self.assumed:
            return False
        text = self.script(path, [Zero], branch)
        status, lines = self.prove(text, "empty.fx", keep=False)
        return status == 0 and lines and all(x.endswith(" in empty") for x in lines)

    def wraps(self, path, branch, numbers, name):
        """The numbers of the goals, of one branch of a path, that stay open, each with the
        program's line; and whether hints were needed."""
        goals, opened, hinted = path.goals, [], False
        size = room(path, conditions(path, branch), self.assumed)
        todo = [numbers[a:a + size] for a in range(0, len(numbers), size)]
        for part, some in enumerate(todo):      # (more parts are added to the list on the way)
            file = name + ("_%d" % part if part else "") + ".fx"
            claims = [claim_of(goals[i], self.place) for i in some]
            status, lines = self.prove(self.script(path, claims, branch), file)
            if status == 1:
                own = own_hints(path, [goals[i].node for i in some], conditions(path, branch))
                if own:
                    status, lines = self.prove(self.script(path, claims, branch, own), file)
                    hinted = hinted or status == 0
            if status == 1 and len(some) == 1:
                status, lines, more = self.cased(path, branch, goals[some[0]], file, lines)
                hinted = hinted or more
            if status and len(some) == 1:
                opened.append((some[0], " ".join(lines[:1])))
            elif status:
                size = 1 if status == 1 and len(some) <= 24 or status not in (0, 1) else \
                    (len(some) + 1) // 2
                todo += [some[a:a + size] for a in range(0, len(some), size)]
        return sorted(opened), hinted

    def cased(self, path, branch, goal, file, lines):
        """The same of one goal that is open, with the joined words near it defined by cases: status
        and lines, those of before if that doesn't help, and whether hints were needed."""
        joins, claim = joins_of(goal.node, branch), claim_of(goal, self.place)
        own = own_hints(path, [goal.node], conditions(path, branch))
        for some in [joins[:k] for k in sorted({1, 2, 4, len(joins)}) if k <= len(joins)]:
            for hints in [[], own] if own else [[]]:
                text = self.script(path, [claim], branch, hints, joins=some)
                status, after = self.prove(text, file)
                if status == 0:
                    return status, after, bool(hints)
        return 1, lines, False

    def interval(self, path, claim, name, branch=None, conds=(), more=(), errors=None, seconds=0):
        """What `prove` knows of a goal with `?`: a pair of texts, "empty", or nothing."""
        nodes = [n for n, _ in claim.roots]
        own = own_hints(path, nodes, conditions(path, branch) + list(conds))
        tries = [list(more) + own, list(more), own, []]
        for hints in [tries[0]] if seconds else [h for k, h in enumerate(tries)
                                                 if h not in tries[:k]]:
            text = self.script(path, [claim], branch, hints, conds, errors)
            if text is None:
                return None
            if seconds:
                status, lines = 0, self.hinted(text, name, seconds)
            else:
                status, lines = self.prove(text, name)
            match = LINE.search(lines[0]) if status == 0 and lines else None
            if match:
                return "empty" if match.group(3) else (match.group(1), match.group(2))
        return None


class Zero:
    """The claim that asks nothing."""

    text, roots, remark = "0 in ?", [], ""


def ask(node):
    """The text of a `?` goal of a node."""
    return "%s in ?" % atom(node)
