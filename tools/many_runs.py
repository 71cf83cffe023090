"""The runs of `many`: lists of `batch` side by side, and the answers that are kept in a folder.

A run reads copies of the scripts, so that an answer belongs to the bytes whose SHA-256 it has. In
the folder each process has a file of its own, NAME.jsonl, with a line of JSON for each answer.
So several machines may write there, and files from elsewhere may be added.
"""

import contextlib
import json
import os
import queue
import socket
import subprocess
import tempfile
import threading
import time

import about
import assistants as shared
import results_model as model

FORMAT = "fixprove-many 1"
# what a list of `batch` takes, and the boxes that it gives a script at most
LIST, BATCH_BOXES = 64, 512
# answers that the script, the program and the options decide
LASTING = (0, 1, 3, 4)
TOO_MANY = "limit: more than %d boxes" % BATCH_BOXES


class Kept:
    """The folder of answers: those that were there, by the script's sum, and this run's file."""

    def __init__(self, folder, program, options):
        self.folder, self.file, self.found = folder, None, {}
        self.head = {"format": FORMAT, "program": about.sum_of(program), "options": options}
        if folder is None:
            return
        try:
            os.makedirs(folder, exist_ok=True)
            for name in sorted(os.listdir(folder)):
                if name.endswith(".jsonl"):
                    self.read(os.path.join(folder, name))
        except OSError as error:
            raise shared.Fault("%s: %s" % (error.filename, error.strerror))

    def read(self, path):
        """Takes the answers of a file that are for this program and these options."""
        with open(path, "rb") as file:
            for line in file:
                # (a line that isn't whole is one that a stop cut off)
                with contextlib.suppress(ValueError, KeyError, TypeError, AttributeError):
                    entry = json.loads(line)
                    row = entry.pop("script")
                    if entry == self.head and row["status"] in LASTING and row["lines"]:
                        self.found[row["sha256"]] = row

    def __enter__(self):
        return self

    def __exit__(self, *_):
        if self.file is not None:
            self.file.close()

    def add(self, rows):
        """Writes answers down. Those that may be others next time aren't kept."""
        rows = [it for it in rows if it["status"] in LASTING and it["sha256"]]
        if self.folder is None or not rows:
            return
        try:
            if self.file is None:
                name = "%s-%d-%d.jsonl" % (socket.gethostname(), os.getpid(), time.time_ns())
                self.file = open(os.path.join(self.folder, name), "xb")
            lines = [json.dumps(dict(self.head, script=row)) + "\n" for row in rows]
            self.file.write("".join(lines).encode())
            self.file.flush()
            os.fsync(self.file.fileno())
        except OSError as error:
            raise shared.Fault("%s: %s" % (error.filename or self.folder, error.strerror))


def data_of(name):
    """A script's bytes, or None where it is no plain file that can be read."""
    try:
        with open(name, "rb") as file:
            return file.read() if os.path.isfile(name) else None
    except OSError:
        return None


class Stopped(Exception):
    """The runs are to end."""


class Runs:
    """Threads that take lists of scripts and give their rows."""

    def __init__(self, program, options, jobs):
        self.program, self.options = program, options
        self.todo, self.out = queue.Queue(), queue.Queue()
        self.lock, self.running, self.is_stopped = threading.Lock(), set(), False
        self.threads = [threading.Thread(target=self.work, daemon=True) for _ in range(jobs)]

    def stop(self):
        """Ends the runs of the program, and the threads."""
        with self.lock:
            self.is_stopped = True
            for process in self.running:
                process.kill()
        for thread in self.threads:
            thread.join()

    def work(self):
        while True:
            task = self.todo.get()
            if task is None or self.is_stopped:
                return
            try:
                self.out.put((task[0], self.rows(task[1])))
            except Stopped:
                return
            except Exception as fault:      # (the main thread raises it, and ends the rest)
                self.out.put((task[0], fault))
                return

    def run(self, words, folder):
        """One run of the program: its status, negative for a signal, and what it printed."""
        with self.lock:
            if self.is_stopped:
                raise Stopped
            how = {"cwd": folder, "stdin": subprocess.DEVNULL, "stdout": subprocess.PIPE}
            process = subprocess.Popen([self.program, *words], **how)
            self.running.add(process)
        printed = process.communicate()[0]
        with self.lock:
            self.running.discard(process)
            if self.is_stopped:
                raise Stopped
        return process.returncode, printed

    def words(self, command, boxes):
        own = dict(self.options, boxes=boxes, workers=1)
        return [command] + [it for name in own for it in ("--" + name, str(own[name]))]

    def rows(self, names):
        """The answers of a list of scripts, given by their names, in its order."""
        texts = [data_of(name) for name in names]
        with tempfile.TemporaryDirectory(prefix="fixprove-") as folder:
            copies = [it for it in range(len(names)) if texts[it] is not None]
            for at in copies:
                with open(os.path.join(folder, str(at)), "wb") as file:
                    file.write(texts[at])
            found = dict.fromkeys(range(len(names)))
            if len(copies) > 1:
                found.update(zip(copies, self.listed(copies, texts, folder)))
            for at, row in found.items():
                # a list that broke off, or a script that asks for more boxes than a list gives
                is_cut = row and row["lines"] == [TOO_MANY] and self.options["boxes"] > BATCH_BOXES
                if row is None or is_cut:
                    where = (str(at), folder) if at in copies else (os.fsdecode(names[at]), None)
                    found[at] = self.alone(where[0], texts[at], where[1])
        return [dict(found[at], name=model.shown(name)) for at, name in enumerate(names)]

    def listed(self, copies, texts, folder):
        """The answers of one run of `batch`; None for each where it broke off."""
        names = [str(at).encode() for at in copies]
        with open(os.path.join(folder, "list"), "wb") as file:
            file.write(b"\n".join(names) + b"\n")
        words = self.words("batch", min(self.options["boxes"], BATCH_BOXES))
        status, printed = self.run(words + ["list"], folder)
        found = None
        if status in LASTING:
            own = [texts[at] for at in copies]
            found = model.batch_results(names, own, model.lines_of(printed))
        return found or [None] * len(copies)

    def alone(self, name, data, folder):
        """The answer of `prove` on one script; 128 and more is the signal that ended the run."""
        words = self.words("prove", self.options["boxes"]) + ["--", name]
        status, printed = self.run(words, folder)
        lines = [model.shown(it) for it in model.lines_of(printed)]
        status = status if status >= 0 else 128 - status
        return model.script_result(os.fsencode(name), data, status, lines)


def groups_of(rest, jobs):
    """Lists of at most 64 scripts; fewer, if else some of the runs had none."""
    size = max(1, min(LIST, len(rest) // (4 * jobs)))
    return [rest[at:at + size] for at in range(0, len(rest), size)]


def answers(names, kept, program, options, jobs, progress):
    """The rows of all scripts, in their order.

    names      the scripts' names, as bytes
    kept       where answers are found and written
    options    rounds, depth and boxes, as numbers
    progress   has take(row, is_kept) called for each row, and say() often
    """
    rows, rest = [None] * len(names), []
    for at, name in enumerate(names):
        data = data_of(name) if kept.found else None
        known = kept.found.get(model.sha256(data)) if data is not None else None
        if known is None:
            rest.append(at)
        else:
            rows[at] = dict(known, name=model.shown(name))
            progress.take(rows[at], True)
    groups = groups_of(rest, jobs)
    runs = Runs(program, options, min(jobs, len(groups)))
    for group in groups:
        runs.todo.put((group, [names[at] for at in group]))
    for thread in runs.threads:
        runs.todo.put(None)
        thread.start()
    try:
        left = len(groups)
        while left:
            progress.say()
            with contextlib.suppress(queue.Empty):
                group, found = runs.out.get(timeout=0.5)
                if isinstance(found, Exception):
                    raise found
                kept.add(found)
                left -= 1
                for at, row in zip(group, found):
                    rows[at] = row
                    progress.take(row, False)
    finally:
        runs.stop()
    return rows
