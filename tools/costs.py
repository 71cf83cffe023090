#!/usr/bin/env python3
"""How many instructions parts of the program take, counted by valgrind's callgrind.

    tools/costs.py [--program FILE] [--save FILE] [--against FILE] [--list] [PART ..]

Runs the built program on small inputs, by one worker, and prints of each run how many million
instructions it took. Below it stand functions of the program: how often each was called, how many
million instructions its calls took with all that they call, and how many a call. A function that
the program doesn't have as one of its own, since it is written out where it is called, has none.

PART is one of those that --list prints; if none is named, all but `large` are counted. --save puts
the counts into a file, and --against compares with such a file of another program: before, now,
and their ratio. Counts are exact; ratios, and instructions a call, are rounded up.

The same program has the same counts on the same machine, whatever else runs there. Copies of
memory are counted by the instructions of the C library's loops, which differ from one kind of
processor to another. The status is 0, 1 if a run ended with another status than it should, and 2
if the words are wrong or nothing can be counted.
"""

import json
import os
import shutil
import subprocess
import sys
import tempfile
from collections import namedtuple

import assistants as shared
import cost_scripts

NO_VALGRIND = (
    "valgrind isn't there, by which instructions are counted: on Debian and Ubuntu "
    "`sudo apt-get install valgrind` gets it, on Fedora `sudo dnf install valgrind`"
)

# A copy by one instruction of the processor would be counted as one for each byte; so the C
# library copies by loops.
TUNABLES = (
    "glibc.cpu.x86_rep_movsb_threshold=100000000:glibc.cpu.x86_rep_stosb_threshold=100000000"
)

# What a run took: its instructions, and of each function that is asked for calls and instructions.
Count = namedtuple("Count", "total inside")


def plain(name):
    """A function's name without what tells its instances apart."""
    return name.split("::<", 1)[0].split("'", 1)[0].strip()


def counts_in(lines, wanted):
    """The `Count` of callgrind's lines, with calls and instructions of the wanted functions.

    The lines are those of `--compress-strings=no`. A Fault says that they have no summary."""
    total, inside = None, {name: [0, 0] for name in wanted}
    callee, many = None, None
    for line in lines:
        if many is not None:
            inside[callee][0] += many
            inside[callee][1] += int(line.split()[1])
            many = None
        elif line.startswith("cfn="):
            callee = plain(line[4:])
        elif line.startswith("calls=") and callee in inside:
            many = int(line[6:].split()[0])
        elif line.startswith(("summary:", "totals:")) and total is None:
            total = int(line.split()[1])
    if total is None:
        raise shared.Fault("callgrind counted nothing")
    return Count(total, {name: found for name, found in inside.items() if found[0]})


class Counter:
    """Runs the program in folders of its own, under callgrind."""

    def __init__(self, program):
        shared.Program(program)
        self.program, self.valgrind = os.path.abspath(program), shutil.which("valgrind")
        if self.valgrind is None:
            raise shared.Fault(NO_VALGRIND)
        self.around = {"GLIBC_TUNABLES": TUNABLES}
        if "VALGRIND_LIB" in os.environ:
            self.around["VALGRIND_LIB"] = os.environ["VALGRIND_LIB"]

    def count(self, wanted, files):
        """The `Count` of a `Run` with these files, and its status."""
        with tempfile.TemporaryDirectory(prefix="fixprove-") as folder:
            place(folder, self.program, files)
            if wanted.before:
                subprocess.run(["./program"] + wanted.before, cwd=folder, env={},
                               stdout=subprocess.DEVNULL, stderr=subprocess.DEVNULL)
            ran = subprocess.run(
                [self.valgrind, "--tool=callgrind", "--callgrind-out-file=counts",
                 "--compress-strings=no", "--compress-pos=no", "./program"] + wanted.words,
                cwd=folder, env=self.around, stdout=subprocess.DEVNULL, stderr=subprocess.PIPE)
            try:
                with open(os.path.join(folder, "counts"), errors="replace") as lines:
                    return counts_in(lines, wanted.inside), ran.returncode
            except FileNotFoundError:
                said = ran.stderr.decode(errors="replace").strip().splitlines() or ["no word"]
                raise shared.Fault("valgrind ended with %d: %s" % (ran.returncode, said[-1]))


def place(folder, program, files):
    """Puts the program and files into a folder, under names that are as long for each program."""
    os.symlink(program, os.path.join(folder, "program"))
    for name, content in files.items():
        with open(os.path.join(folder, name), "wb") as file:
            file.write(content)


# -- tables


def million(count):
    """A count in millions, exactly."""
    return "%d.%06d" % divmod(count, 10 ** 6)


def ratio(now, before):
    """A ratio by three digits, rounded up."""
    if not before:
        return "-"
    return "%d.%03d" % divmod(-(-now * 1000 // before), 1000)


def rows_of(counted):
    """The lines of a run's row: name, calls, instructions, of the run and of its functions."""
    yield "%s: %s" % (counted["part"], counted["what"]), None, counted["total"]
    for name in counted["functions"]:
        calls, cost = counted["inside"].get(name, (0, 0))
        yield "  in " + name, calls, cost


def table_line(counted, before):
    """The lines of a run, beside those of another program if there are some."""
    lines = []
    old = {name: cost for name, _, cost in rows_of(before)} if before else {}
    for name, calls, cost in rows_of(counted):
        line = "%-56s %12s" % (name, "-" if calls == 0 else million(cost))
        if before:
            was = old.get(name, 0)
            line = "%-56s %12s %12s %8s" % (
                name, million(was) if was else "-", million(cost) if cost else "-",
                ratio(cost, was) if cost else "-")
        elif calls:
            line += " %8d calls %10d each" % (calls, -(-cost // calls))
        lines.append(line)
    return "\n".join(lines)


# -- files of counts


def read_counts(name):
    """The counts that --save left in a file, by part and what."""
    try:
        rows = json.loads(shared.read_text(name))["runs"]
        wanted = {"part": str, "what": str, "input": str, "total": int, "inside": dict,
                  "functions": list}
        for row in rows:
            if not all(isinstance(row[key], kind) for key, kind in wanted.items()):
                raise ValueError
            if not all(isinstance(calls, int) and isinstance(cost, int)
                       for calls, cost in row["inside"].values()):
                raise ValueError
        return {(row["part"], row["what"]): row for row in rows}
    except (ValueError, KeyError, TypeError):
        raise shared.Fault("%s: these aren't counts that --save left" % name)


def save(name, rows):
    """Puts counts into a file."""
    shared.write_text(name, json.dumps({"runs": rows}, indent=1) + "\n")


# -- words


def words_of(words):
    """What the words ask for."""
    parser = shared.Words("Counts the instructions that parts of the program take, by callgrind.")
    parser.runs()
    parser.add_argument("--save", metavar="FILE", help="the file into which the counts go")
    parser.add_argument("--against", metavar="FILE", help="counts of another program")
    parser.add_argument("--list", action="store_true", help="prints the parts, and counts nothing")
    parser.add_argument("part", nargs="*", metavar="PART", help="a part; else all but `large`")
    given = parser.parse_args(words)
    for part in given.part:
        if part not in cost_scripts.PARTS:
            raise shared.Fault("%s is no part (--list prints them)" % part)
    return given


def main(words):
    """Counts what the words ask for, prints it, and says how the tool ends."""
    given = words_of(words)
    if given.list:
        for name, part in cost_scripts.PARTS.items():
            print("%-13s %s" % (name, part.__doc__))
        return 0
    before = read_counts(given.against) if given.against else None
    counter, rows, status = Counter(given.program), [], 0
    heads = ("before", "now", "ratio") if before else ("million",)
    print("%-56s" % "" + "".join(" %*s" % (8 if head == "ratio" else 12, head) for head in heads))
    for part in given.part or cost_scripts.USUAL:
        for wanted in cost_scripts.PARTS[part]():
            files = wanted.files()
            count, ended = counter.count(wanted, files)
            row = {"part": wanted.part, "what": wanted.what, "total": count.total,
                   "inside": count.inside, "functions": list(wanted.inside),
                   "input": cost_scripts.input_of(wanted, files)}
            rows.append(row)
            if ended != wanted.status:
                print("%s: %s: status %d in place of %d" % (
                    wanted.part, wanted.what, ended, wanted.status))
                status = 1
            old = before and before.get((wanted.part, wanted.what))
            if old and old["input"] != row["input"]:
                print("%s: %s: the other program was given something else" % (
                    wanted.part, wanted.what))
                old = None
            print(table_line(row, old), flush=True)
    if given.save:
        save(given.save, rows)
    return status


if __name__ == "__main__":
    shared.ran(main)
