"""Runs of a template: which values prove all goals, and which intervals the goals have then.

Scripts run by `batch`, 64 at once. Each script runs once; what was found is kept.
"""

import os
import sys
import time

import assistants as shared
from width_templates import filled, said

AT_ONCE = 64        # scripts of a list
MOST_BOXES = 512    # boxes of a script in a list
WORDS = (("unproved: goal ", 1), ("usage: ", 2), ("script: ", 3), ("limit: ", 4),
         ("read fault: ", 6), ("list: ", 12))


class Expired(Exception):
    """The seconds of the search are up."""


class Progress:
    """What is told on standard error: what is done, for how long, and how long it may still take.

    Nothing is told in the first second, and later a line each two seconds at most."""

    def __init__(self, seconds):
        self.begin, self.told, self.seconds = time.time(), time.time() - 1, seconds
        self.what, self.runs, self.lists, self.left = "first runs", 0, 0, 0

    def of(self, what, lists):
        """What goes on from now, and how many lists it may take, about."""
        self.what, self.left = what, lists

    def ran(self, count):
        """A list of so many scripts was run."""
        self.runs, self.lists, self.left = self.runs + count, self.lists + 1, max(0, self.left - 1)
        now = time.time()
        if now - self.told < 2:
            return
        self.told = now
        spent = now - self.begin
        left = min(spent / self.lists * self.left, max(0, self.seconds - spent))
        sys.stderr.write("%s: %d runs in %d s, about %d s left\n"
                         % (self.what, self.runs, spent, left + 1))
        sys.stderr.flush()

    def remain(self):
        """The seconds that are left; Expired where none are."""
        left = self.begin + self.seconds - time.time()
        if left <= 0:
            raise Expired()
        return left


def batched(program, texts, words, boxes, jobs, seconds=None):
    """What `prove` answers for each text, as a list of Answer: by lists of 64 scripts, each with
    the options `words` and at most `boxes` boxes (None: as many as `prove` has). A script that
    passes the boxes of a list is run alone. None where it takes longer than `seconds`."""
    answers, ends = [], None if seconds is None else time.time() + seconds

    def left():
        return None if ends is None else max(0.05, ends - time.time())
    for first in range(0, len(texts), AT_ONCE):
        some, names = texts[first:first + AT_ONCE], []
        for text in some:
            names.append(os.path.join(program.folder.name, "%d.fx" % next(program.runs)))
            shared.write_text(names[-1], text)
        listed = os.path.join(program.folder.name, "%d.list" % next(program.runs))
        shared.write_text(listed, "\n".join(names) + "\n")
        fewer = ["--boxes", str(min(boxes or MOST_BOXES, MOST_BOXES))]
        run = program.run(["batch", listed, "--workers", str(jobs)] + words + fewer, left())
        for name in names + [listed]:
            os.unlink(name)
        if run is None:
            return None
        parts = parted(run.lines, names)
        if len(parts) != len(names):
            raise shared.Fault("a list of %d scripts ended with status %d%s" % (
                len(names), run.status, ": " + run.lines[-1] if run.lines else ""))
        for text, answer in zip(some, parts):
            if answer.status == 4 and "boxes" in answer.lines[0] and (boxes or 4096) > MOST_BOXES:
                more = [] if boxes is None else ["--boxes", str(boxes)]
                answer = program.prove(text, words + more + ["--workers", str(jobs)], left())
                if answer is None:
                    return None
            answers.append(answer)
    return answers


def parted(lines, names):
    """The answers of a list's scripts: those of which lines were printed, in the order of names."""
    found, some, at = [], None, 0
    for line in lines:
        if at < len(names) and line == "script " + names[at]:
            some, at = [], at + 1
            found.append(some)
        elif some is None:
            return []
        else:
            some.append(line)
    answers = []
    for some in found:
        if not some:
            return answers
        status = next((status for word, status in WORDS if some[0].startswith(word)), 0)
        answers.append(shared.Answer(status, some))
    return answers


class Judge:
    """Which values prove a template's script, by the program, and what its goals are then.

    Values are tuples in the order of `names`. Options are those of `prove`; `boxes` is None if not
    given."""

    def __init__(self, program, template, names, options, boxes, jobs, progress):
        self.program, self.template, self.names = program, template, names
        self.options, self.boxes, self.jobs, self.progress = options, boxes, jobs, progress
        self.answers, self.intervals = {}, {}

    def text(self, values):
        return filled(self.template, dict(zip(self.names, values)))

    def script(self, values):
        """The script for values, which the program has taken, as it is read."""
        return shared.Script(self.text(values))

    def run(self, texts, words):
        found = []
        for first in range(0, len(texts), AT_ONCE):
            some = texts[first:first + AT_ONCE]
            answers = batched(self.program, some, words, self.boxes, self.jobs,
                              self.progress.remain())
            if answers is None:
                raise Expired()
            self.progress.ran(len(some))
            found += answers
        return found

    def ask(self, points):
        """The answers for values, in their order."""
        new = [p for p in dict.fromkeys(points) if p not in self.answers]
        for first in range(0, len(new), AT_ONCE):
            some = new[first:first + AT_ONCE]
            for point, answer in zip(some, self.run([self.text(p) for p in some], self.options)):
                if answer.status not in (0, 1, 4):
                    line = answer.lines[0] if answer.lines else "status %d" % answer.status
                    raise shared.Fault("with %s: %s" % (said(self.names, point), line))
                self.answers[point] = answer
        return [self.answers[point] for point in points]

    def proved(self, point):
        return self.ask([point])[0].status == 0

    def known(self, points):
        """For values the intervals of the goals that have bounds, asked as `?` and without halving:
        lists of pairs, or None where some of them is nothing finite."""
        new = [p for p in dict.fromkeys(points) if p not in self.intervals]
        texts = []
        for point in new:
            script = self.script(point)
            goals = [goal.says + " in ?" for goal in script.goals if not goal.ask]
            hints = [hint.text for hint in script.hints if hint.kind != "halve"]
            texts.append(script.written(goals=goals, hints=hints))
        for point, answer in zip(new, self.run(texts, self.options)):
            fine = answer.status == 0 and all(isinstance(i, tuple) for i in answer.intervals)
            self.intervals[point] = answer.intervals if fine else None
        return [self.intervals[point] for point in points]
