"""A script of Gappa as a script of `fixprove`.

`translated(text)` gives a Translation. Its `text` is the script, with the layout and the comments
of the original, or None where something isn't served; `unserved` has a Word for each such
construct, and `notes` one for each change that a reader should know. All are in the order of
their places. Raises `gappa_text.Unread` where the text is no script of Gappa 1.4.1.
"""

import re
from collections import namedtuple

from gappa_formula import Formula, conjuncts
from gappa_script import Atom, Gappa, Join
from gappa_text import Word

Translation = namedtuple("Translation", "text notes unserved")
OPTION = re.compile(r"#@[ \t]*-(E[-a-z]+)(?:=([^\s]*))?[^\n]*")
SPLITS, PIECES, HINTS, DEFINITIONS = 4, 64, 64, 256


def translated(text):
    """The translation of a script; raises Unread."""
    return Writer(text).translation()


class Writer:
    """The writing of one script."""

    def __init__(self, text):
        self.script = Gappa(text)
        self.formula = Formula(self.script)
        self.notes = divisions(self.script.notes)
        self.unserved = self.script.unserved + self.formula.unserved
        self.over = []          # (start, end, text) of what is written anew
        self.cuts, self.halved, self.added = 0, [], []
        self.more = []          # ranges that hypotheses imply, as texts

    def translation(self):
        """Writes the hints and the formula, and puts all together."""
        for hint in self.script.hints:
            if hint.kind == "split":
                self.split(hint)
        self.by_itself()
        for left, right, at in self.formula.equalities:
            self.added.append("%s -> %s + (%s - %s);" % (left, right, left, right))
            self.notes.append(Word(at, "= is written as a difference in [0,0]",
                                   "with the hint %s" % self.added[-1]))
        self.braces()
        self.options()
        self.limits()
        order = [sorted(set(some)) for some in (self.notes, self.unserved)]
        return Translation(None if self.unserved else self.whole(), *order)

    def limits(self):
        """Tells of limits that the script passes."""
        script = self.script
        count = len(script.hints) + len(self.added)
        if count > HINTS:
            self.unserved.append(Word(script.close.start, "%d hints" % count,
                                      "at most %d: leave out some" % HINTS))
        try:
            script.text.encode("latin-1").decode("utf-8")
        except UnicodeDecodeError as fault:
            self.unserved.append(Word(fault.start, "a byte that isn't UTF-8",
                                      "write comments in UTF-8"))
        count = len(script.defined) + len(script.operators)
        if count > DEFINITIONS:
            self.unserved.append(Word(script.open.start, "%d definitions" % count,
                                      "at most %d: cut the script at a proved range" % DEFINITIONS))

    def options(self):
        """Tells what becomes of options that are embedded in comments."""
        cures = {"Edichotomy": "--depth says how often boxes are halved, 16 if not given",
                 "Echange-threshold": "no fact is dropped for being little better",
                 "Eprecision": "ends have 60 bits",
                 "Ereverted-fma": "fma(a,b,c) is a * b + c, the same value",
                 "Eno-auto-dichotomy": "nothing is split without a $ hint"}
        for match in OPTION.finditer(self.script.text):
            what = "the option -%s is a comment here" % match.group(1)
            self.notes.append(Word(match.start(), what, cures.get(match.group(1), "no effect")))

    # ---- splits

    def split(self, hint):
        """A hint with $: as it is, or written anew."""
        written, halved, plain = [], [], True
        for cut in hint.cuts:
            node = self.script.nodes[cut.node]
            names = self.script.below(cut.node)
            if node[0] != "var":
                plain = False
                if not names:
                    self.unserved.append(Word(cut.start, "a split of a number", "leave it out"))
                    continue
                if cut.points and (len(names) > 1 or not self.only_rounded(cut.node)):
                    self.unserved.append(Word(cut.start, "points of an expression",
                                              "cut a variable: $ %s in (..)" % names[0]))
                    continue
                self.notes.append(Word(cut.start, "a split of an expression",
                                       "written as one of %s" % " and ".join(names)))
            elif self.script.text[cut.start:cut.end] != names[0]:
                plain = False
            for name in names:
                self.ranged(name, cut.start)
                if cut.points:
                    written.append("$ %s in (%s);" % (name, ",".join(cut.points)))
                elif cut.pieces:
                    written += self.pieces(name, cut)
                elif hint.left or hint.prop:
                    halved += [name] if name not in halved else []
                else:
                    written.append("$ %s;" % name)
        self.cuts += len(written)
        if halved:
            spans = [self.formula.text(span) for span in hint.spans] or halved[:1]
            written.insert(0, "%s $ %s;" % (", ".join(spans), ", ".join(halved)))
            self.halved += [name for name in halved if name not in self.halved]
        if self.cuts > SPLITS or len(self.halved) > SPLITS:
            self.unserved.append(Word(hint.start, "more than %d splits" % SPLITS,
                                      "keep those of the variables that occur most"))
        if len(written) != 1 or not plain or hint.prop or written[0].startswith("$") and hint.left:
            self.over.append((hint.start, hint.end, " ".join(written)))

    def pieces(self, name, cut):
        """The cuts of a variable into at least so many pieces, at most 64 by each."""
        if cut.pieces <= PIECES:
            return ["$ %s in %d;" % (name, cut.pieces)]
        for count in range(cut.pieces, PIECES * PIECES + 1):
            for one in range(PIECES, 1, -1):
                if count % one == 0 and count // one <= PIECES:
                    self.notes.append(Word(cut.start, "%d pieces" % cut.pieces,
                                           "written as %d times %d" % (one, count // one)))
                    return ["$ %s in %d;" % (name, one), "$ %s in %d;" % (name, count // one)]
        self.unserved.append(Word(cut.start, "%d pieces" % cut.pieces,
                                  "at most %d by two hints" % PIECES ** 2))
        return []

    def only_rounded(self, at):
        """Whether a node is a variable under roundings."""
        node = self.script.nodes[at]
        return node[0] == "var" or node[0] == "rnd" and self.only_rounded(node[3])

    def by_itself(self):
        """Where Gappa would choose a split by itself, adds one: no goal is a ?, no $ is there."""
        goals = self.formula.goals
        if not goals or any(goal.ask for goal in goals) or \
                any(hint.kind == "split" for hint in self.script.hints):
            return
        asked = [goal for goal in goals if goal.node is not None]
        counts = {}
        for goal in asked:
            roots = goal.node if isinstance(goal.node, tuple) else (goal.node,)
            for name in self.script.variables:
                counts[name] = counts.get(name, 0) + sum(self.occurrences(root, name)
                                                         for root in roots)
        names = [name for name in sorted(counts, key=counts.get, reverse=True)
                 if counts[name] and self.has_range(name)]
        names = [name for name in names if counts[name] > 1][:2] or names[:1]
        if names:
            heads = [goal.says.split(" -/ ")[0] for goal in asked]
            self.added.append("%s $ %s;" % (", ".join(heads[:4]), ", ".join(names)))
            self.notes.append(Word(self.script.close.start, "Gappa would split by itself",
                                   "added: %s" % self.added[-1]))

    def occurrences(self, root, name):
        """How often a variable occurs in an expression, written out."""
        memo = {}

        def of(at):
            if at not in memo:
                node = self.script.nodes[at]
                memo[at] = int(node[1] == name) if node[0] == "var" else \
                    sum(of(child) for child in self.script.children(at))
            return memo[at]
        return of(root)

    # ---- ranges of split variables

    def ranged(self, name, at):
        """Sees to it that a split variable has a range in each case."""
        if self.has_range(name):
            return
        low = high = None
        for atom in self.certain():
            node = self.script.variables[name]
            bar = self.script.index.get(("abs", node))
            if atom.left == node and atom.kind in ("le", "ge"):
                text = self.formula.text(atom.spans[1])
                low, high = (text, high) if atom.kind == "ge" else (low, text)
            elif atom.left == bar and atom.kind == "le":
                text = self.formula.text(atom.spans[1]).lstrip("+")
                low, high = "-" + text, text
            elif atom.left == bar and atom.kind == "in":
                text = self.formula.text(atom.spans[2]).lstrip("+")
                low, high = "-" + text, text
        if low is None or high is None:
            self.unserved.append(Word(at, "a split of %s, which has no range" % name,
                                      "assume %s in [a,b] in each case" % name))
        else:
            range_of = "%s in [%s,%s]" % (name, low, high)
            if range_of not in self.more:
                self.more.append(range_of)

    def has_range(self, name):
        """Whether each case has a hypothesis `name in [a,b]`."""
        node = self.script.variables[name]
        for part in self.spine():
            some = part.parts if isinstance(part, Join) and part.kind == "or" else (part,)
            if all(any(isinstance(it, Atom) and it.kind == "in" and it.left == node
                       for it in conjuncts(one)) for one in some):
                return True
        return False

    def spine(self):
        """The hypothesis parts of the formula, conjunct by conjunct."""
        at, found = self.script.formula, []
        while isinstance(at, Join) and at.kind == "imp":
            found += conjuncts(at.parts[0])
            at = at.parts[1]
        return found

    def certain(self):
        """The propositions that hold in each case."""
        return [it for it in self.spine() if isinstance(it, Atom)]

    # ---- the text

    def braces(self):
        """The formula, as it is or written anew, with the ranges that were added."""
        script, formula = self.script, self.formula
        if not formula.as_it_is:
            formula.parts[:0] = [[[one]] for one in self.more]
            self.over.append((script.open.start, script.close.end, formula.written()))
            self.notes.append(Word(script.open.start, "the formula is written anew",
                                   "hypotheses, ->, and a conjunction of goals"))
        elif self.more:
            text = "{ " + " /\\ ".join(self.more) + "\n  ->"
            self.over.append((script.open.start, script.open.end, text))
        for one in self.more:
            self.notes.append(Word(script.open.start, "a split needs a range", "added: " + one))

    def whole(self):
        """The script's text."""
        inner = [edit for edit in self.script.edits
                 if not any(low <= edit[0] and edit[1] <= high for low, high, _ in self.over)]
        out, at, text = [], 0, self.script.text
        for low, high, new in sorted(inner + self.over, key=lambda it: it[:2]):
            out += [text[at:low], new]
            at = high
        made = "".join(out) + text[at:]
        if self.added:
            made = made.rstrip("\n") + "\n" + "\n".join(self.added) + "\n"
        return made


def divisions(notes):
    """The notes of divisions by powers of two, as one."""
    if len(notes) < 2:
        return list(notes)
    first = min(notes)
    return [Word(first.at, "%d divisions by powers of two are written as products" % len(notes),
                 first.cure)]
