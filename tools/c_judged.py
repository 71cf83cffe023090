"""Holds what `from_c` says of random routines against their meaning and against gcc's code."""

import collections
import io
import json
import os
import random
import re
import shutil
import subprocess
import sys
import tempfile
import traceback
from contextlib import redirect_stderr, redirect_stdout
from fractions import Fraction
from importlib.machinery import SourceFileLoader
from importlib.util import module_from_spec, spec_from_loader

import assistants as shared
from c_meaning import Meaning, SPANS
from c_random import Routine
from c_types import HELPERS

TOOLS = os.path.dirname(os.path.abspath(__file__))
CHECKS = ["gcc", "-O0", "-w", "-fsanitize=undefined", "-fno-sanitize=shift-base"]
ALSO = ["clang", "-O0", "-w", "-fsanitize=integer,implicit-conversion",
        "-fno-sanitize=shift-base"]
MAIN = """int scanf(const char *, ...); int printf(const char *, ...);
int main(void) {
  long long w[%d];
  for (;;) {
    for (int i = 0; i < %d; i++) if (scanf("%%lld", w + i) != 1) return 0;
    %s
    printf("\\n");
  }
}
"""


def loaded():
    """The tool as a module."""
    loader = SourceFileLoader("from_c", os.path.join(TOOLS, "from_c"))
    module = module_from_spec(spec_from_loader("from_c", loader))
    loader.exec_module(module)
    return module


def near(chance, low, high):
    """A word of a range: often an end, near one, near 0, or a power of 2."""
    sort = chance.randrange(10)
    if sort > 5:
        return chance.randint(low, high)
    x = (low, high, low + chance.randrange(4), high - chance.randrange(4),
         chance.randrange(-5, 6), chance.choice((1, -1)) << chance.randrange(63))[sort]
    return min(max(x, low), high)


def signed(x):
    """A word of 64 bits as a signed one."""
    return x - (1 << 64) if x >> 63 > 0 else x


class Case:
    """One routine, its words and what it does there: `seen`. `faults` says what is wrong, `soft`
    what is false elsewhere than at the line that is told."""

    def __init__(self, seed, folder):
        self.chance, self.folder, self.faults, self.soft = random.Random(seed), folder, [], []
        self.routine, self.seed = Routine(seed), seed
        self.ends = {}
        self.meaning = Meaning(self.routine)
        self.shrink()
        self.text = self.routine.ranged(self.ranges)
        self.file = os.path.join(folder, "it.c")
        with open(self.file, "w", encoding="ascii") as it:
            it.write(self.text)
        self.static = next((s for s in self.routine.body if s.op == "static"), None)
        self.joins, self.errors = False, 0

    # -- words

    def limits(self, ranges):
        found = {k: ranges.get(group, SPANS[kind]) for k, group, kind in self.routine.inputs}
        return found

    def shrink(self):
        """Ranges in which few words break something, or none that is met."""
        aim = self.chance.choice((0, 0, 0.04, 0.1, 0.3, 1))
        self.ranges = dict(self.routine.ranges)
        for _ in range(12):
            self.ends = self.limits(self.ranges)
            broken = sum(bool(self.at(self.words()).events) for _ in range(25))
            if broken <= aim * 25:
                break
            for k, (low, high) in self.ranges.items():
                if self.chance.random() < 0.7:
                    by = self.chance.choice((2, 2, 4, 16))
                    self.ranges[k] = -(-low // by), high // by
            self.ranges = {k: (min(a, b), max(a, b)) for k, (a, b) in self.ranges.items()}
        self.ends = self.limits(self.ranges)

    def words(self):
        return {k: near(self.chance, *e) for k, e in self.ends.items()}

    def at(self, words):
        self.meaning.start()
        return self.meaning.call(words)

    def climbed(self, count):
        """Words at random, and steps from those at which an output or an operation is extreme."""
        found = [{k: e[i] for k, e in self.ends.items()} for i in (0, 1)]
        found += [self.words() for _ in range(count)]
        for _ in range(3):
            key, sign = self.chance.choice(("result", "all")), self.chance.choice((1, -1))
            best = None
            for n in range(count // 3):
                if best is None or n < 8:
                    point = self.words()
                else:
                    point = dict(best[1])
                    for k in self.chance.sample(list(point), min(len(point), 2)):
                        low, high = self.ends[k]
                        x = point[k] + self.chance.choice((1, -1)) * (
                            1 + (high - low >> self.chance.randrange(1, 33)))
                        point[k] = min(max(x, low), high)
                outs = self.at(point).outs
                worth = sum(sign * v[0] for k, v in outs.items() if key in (k, "all")
                            and v is not None)
                if best is None or worth >= best[0]:
                    best = worth, point
                found.append(point)
        return found

    # -- gcc

    def main(self):
        """The C that reads words, calls the routine and tells its outputs."""
        r, lines = self.routine, []
        number = {k: i for i, (k, _, _) in enumerate(r.inputs)}
        told, args = [], []

        def setting(place, key, sort, tells):
            if isinstance(sort, dict):
                for f, kind in sort.items():
                    setting("%s.%s" % (place, f), "%s_%s" % (key, f), kind, tells)
            elif isinstance(sort[0], tuple):
                for k in range(sort[1]):
                    setting("%s[%d]" % (place, k), "%s_%d" % (key, k), sort[0], tells)
            else:
                lines.append("%s = w[%d];" % (place, number[key]))
                if tells:
                    told.append((key, place))
        for name, sort in r.globals:
            setting(name, name, sort, True)
        for p in r.params:
            sort = "st" if p.fields is not None else p.sort
            if p.array:
                lines.append("%s %s_[%d];" % (self.spelled(sort[0]), p.name, sort[1]))
            else:
                lines.append("%s %s_;" % (self.spelled(sort), p.name))
            setting(p.name + "_", p.name, p.sort, p.pointer is not None and p.left)
            args.append(("" if p.array or not p.pointer else "&") + p.name + "_")
        call = "f(%s)" % ", ".join(args)
        lines.append("long long back = %s;" % call if r.back else call + ";")
        told += [("result", "back")] * bool(r.back)
        lines += ['printf("%%lld ", (long long)%s);' % place for _, place in told]
        self.told = [key for key, _ in told]
        return HELPERS + '#include "it.c"\n' + MAIN % (len(number) + 1, len(number),
                                                       "\n    ".join(lines))

    @staticmethod
    def spelled(kind):
        return kind if kind == "st" else "%sint%d_t" % ("" if kind[1] else "u", kind[0])

    def compiled(self, words=CHECKS):
        """Builds it; whether that was possible."""
        name = os.path.join(self.folder, "main.c")
        with open(name, "w", encoding="ascii") as it:
            it.write(self.main())
        done = subprocess.run(words + ["-o", name[:-2], name], stdout=subprocess.PIPE,
                              stderr=subprocess.STDOUT, check=False)
        if done.returncode:
            self.faults.append("the maker: %s" % done.stdout.decode("latin-1")[:600])
        return done.returncode == 0

    def rows(self, points):
        given = "".join(" ".join(str(signed(p[k])) for k, _, _ in self.routine.inputs) + "\n"
                        for p in points)
        done = subprocess.run([os.path.join(self.folder, "main")], input=given.encode(),
                              stdout=subprocess.PIPE, stderr=subprocess.PIPE, check=False)
        return [dict(zip(self.told, map(int, line.split())))
                for line in done.stdout.decode().splitlines()], done.stderr.decode("latin-1")

    def by_gcc(self, words=CHECKS, also=True):
        """Holds the meaning at words without events against the compiled code."""
        quiet = [(p, outs) for p, events, stopped, outs in self.seen if not events and not stopped]
        if not quiet or not self.routine.inputs or not self.compiled(words):
            return
        rows, said = self.rows([p for p, _ in quiet])
        if said or len(rows) != len(quiet):
            self.faults.append("the meaning: gcc says %s" % (said.splitlines() or [len(rows)])[0])
            return
        for (point, outs), row in zip(quiet, rows):
            for key, x in row.items():
                mine = outs[key][0] if key in outs else point[key]
                if signed(mine % (1 << 64)) != x:
                    self.faults.append("the meaning: %s = %d by gcc, not %d, at %s"
                                       % (key, x, mine, point))
                    return

    # -- runs

    def run(self, count):
        """What the routine does at words; of static variables, call after call."""
        self.seen = []
        if self.static is not None:
            self.meaning.start()
            for _ in range(count):
                point = self.words()
                if self.chance.random() < 0.8 and self.seen:
                    point = dict(self.seen[-1][0])
                m = self.meaning.call(point)
                state = {self.static.args[0]: c.v for c in self.meaning.statics.values()}
                self.seen.append((point, m.events, m.stopped, dict(m.outs, **state)))
                if m.events:
                    break
            return
        for point in self.climbed(count):
            m = self.at(point)
            self.seen.append((point, m.events, m.stopped, m.outs))

    # -- the translator alone

    def quick(self):
        """Holds each path's conditions and goals against the events; how it ended."""
        import c_statements
        import c_types
        from c_search import Evaluation
        unit = None
        try:
            unit = c_types.Unit(self.file)
            ranges, sizes = unit.ranges("f")
            try:
                some = c_statements.paths(unit, "f", ranges, sizes, joins=self.joins, most=64)
            except c_statements.TooMany:
                some = c_statements.paths(unit, "f", ranges, sizes, joins=True)
        except c_types.Refused as fault:
            return self.refused(unit.place(fault.where) if unit else fault.where, fault.what)
        paths = [(p, Evaluation(p)) for p in some]
        for point, events, stopped, outs in self.seen:
            if self.static is not None:
                break
            self.one(paths, point, events, stopped, outs)
        return "joined" if paths[0][0].joins else "paths"

    def one(self, paths, point, events, stopped, outs):
        alias = self.aliases(point)
        here, failed = [], False
        for path, ev in paths:
            far, over, values, *_ = ev.f(*[alias[k] for k in ev.keys])
            fails = [x > 0 and (far == 0 or whole) for x, whole in zip(over, ev.whole)]
            failed = failed or any(fails)
            if far == 0:
                here.append((path, values))
        if events:
            if not failed:
                self.faults.append("no goal fails at %s, but line %d: %s %d"
                                   % ((point,) + events[0]))
            return
        if stopped:
            return
        if failed:
            self.faults.append("a goal fails at %s, but nothing wraps" % point)
        elif len(here) != 1:
            self.faults.append("%d paths take %s" % (len(here), point))
        else:
            for key, x in zip(here[0][0].outs, here[0][1]):
                name = key if key in outs or key in point else key + "_0"
                mine = outs[name][0] if name in outs else point[name]
                if mine != x:
                    self.faults.append("%s = %s by its path, not %s, at %s" % (key, x, mine,
                                                                               point))

    @staticmethod
    def aliases(point):
        """A point with the names that `*p` gives."""
        return dict(point, **{k[:-2]: x for k, x in point.items() if k.endswith("_0")})

    def refused(self, place, what):
        if not re.search(r":\d+:\d+$", place or ""):
            self.faults.append("a refusal without a place: %s: %s" % (place, what))
        return "refused: " + re.sub(r"\d+", "N", what)[:50]

    # -- the tool

    def full(self, tool, program, more=()):
        """Runs the tool and judges what it says; how it ended."""
        out, err = io.StringIO(), io.StringIO()
        name = os.path.join(self.folder, "it.json")
        words = [self.file, "--program", program, "--json", name, "--reach", "0.02", "--narrow",
                 "0", "--seconds", "0.9"] + list(more)
        with redirect_stdout(out), redirect_stderr(err):
            try:
                status = tool.main(words)
            except shared.Fault as fault:
                self.faults.append("a fault: %s" % fault)
                return "fault"
        self.said = out.getvalue()
        if status == 3:
            place, _, what = self.said.strip()[9:].partition(": ")
            return self.refused(place, what)
        if status == 2:
            self.faults.append("the tool's test: " + self.said)
        with open(name, encoding="ascii") as it:
            self.judge(json.load(it))
        return ("proved", "unproved", "fault")[status]

    def judge(self, record):
        lines = {int(row["place"].split(":")[1]) for row in record["unproved"]}
        outs = {row["name"]: row for row in record["outputs"]}
        self.meaning.joined = record["joined"]
        states = {m.group(1): (int(m.group(2)), int(m.group(3))) for m in re.finditer(
            r"state (\w+) in \[(-?\d+), (-?\d+)\]", self.said)}
        self.meaning.start()
        again = []
        for point, events, stopped, _ in self.seen:
            if self.static is None:
                self.meaning.start()
            m = self.meaning.call(point)
            again.append(dict(m.outs))
            for cell in self.meaning.statics.values():
                if cell.outer in states and not m.events and \
                        not states[cell.outer][0] <= cell.v[0] <= states[cell.outer][1]:
                    self.faults.append("the state %s is %d" % (cell.outer, cell.v[0]))
            if events and record["status"] == 0:
                self.faults.append("proved, but at %s line %d: %s %d" % ((point,) + events[0]))
            elif events and events[0][0] not in lines:
                self.soft.append("at %s line %d: %s %d" % ((point,) + events[0]))
        clear = not self.meaning.masks & self.meaning.shifts
        for (point, events, stopped, _), found in zip(self.seen, again):
            if events or stopped:
                continue
            for key, row in outs.items():
                name = key if key in found or key in point or key == "result" else key + "_0"
                if name not in found:
                    continue
                self.held(row, found[name], point, clear)
        for row in record["unproved"]:
            if row["word"] == "false":
                self.counter(row)
        for row in record["outputs"]:
            if row["reached"] and row["error"]:
                low, high = ends_of(row["error"])
                a, b = map(Fraction, row["reached"])
                if low is not None and a < low or high is not None and b > high:
                    self.faults.append("reached is past the bound of %s" % row["name"])

    def held(self, row, v, point, clear):
        """Whether an output and its error are within their bounds."""
        if row["range"]:
            low, high = ends_of(row["range"])
            if low is not None and v[0] < low or high is not None and v[0] > high:
                self.faults.append("%s = %d at %s is past [%s, %s]" % (row["name"], v[0], point,
                                                                       low, high))
        if v[1] is None or not clear or v[3]:
            return
        self.errors += 1
        error = v[0] - v[1]
        low, high = (0, 0) if row["twin"] is None else (None, None) if row["error"] is None else \
            ends_of(row["error"])
        if low is not None and error < low or high is not None and error > high:
            self.faults.append("%s errs by %s at %s, past [%s, %s]" % (row["name"], error, point,
                                                                       low, high))

    def counter(self, row):
        """Whether something breaks at the word that is printed."""
        point = {k: e[0] for k, e in self.ends.items()}
        for k, x in row["point"].items():
            point[k if k in point or k + "_0" not in point else k + "_0"] = x
        m = self.at(point)
        if not m.events:
            self.faults.append("nothing breaks at %s, against %s" % (row["point"], row))
        elif int(row["place"].split(":")[1]) not in {line for line, _, _ in m.events}:
            self.soft.append("not at its place: %s at %s" % (row["place"], row["point"]))


def ends_of(row):
    """An interval of the JSON as a pair of fractions."""
    return tuple(None if isinstance(e, str) else Fraction(int(e["m"])) * Fraction(2) ** e["e"]
                 for e in (row["low"], row["high"]))


def one(seed, folder, tool, program, quick, count=40):
    """Makes and judges one routine: (case, how it ended)."""
    case = Case(seed, folder)
    case.run(count)
    if seed % 4 == 0:
        case.by_gcc()
    if seed % 16 == 2 and shutil.which(ALSO[0]):
        case.by_gcc(ALSO)
    case.joins = seed % 4 == 1
    try:
        if quick:
            return case, case.quick()
        more = ["--join"] * case.joins + ["--test", "6"] * (seed % 6 == 0 and not case.static)
        return case, case.full(tool, program, more)
    except Exception:
        case.faults.append(traceback.format_exc())
        return case, "crash"


def main(words):
    """Judges COUNT routines from a seed on; 1 if there are faults."""
    parser = shared.Words(__doc__.splitlines()[0])
    parser.add_argument("count", type=int, metavar="COUNT")
    parser.add_argument("seed", type=int, metavar="SEED")
    parser.add_argument("--quick", action="store_true", help="without the program")
    parser.add_argument("--keep", metavar="DIR", help="where routines with faults are kept")
    parser.runs()
    given = parser.parse_args(words)
    tool, ended, bad, events, errors = loaded(), collections.Counter(), 0, 0, 0
    with tempfile.TemporaryDirectory(prefix="fixprove-") as folder:
        for seed in range(given.seed, given.seed + given.count):
            case, how = one(seed, folder, tool, given.program, given.quick)
            ended[how] += 1
            bad += bool(case.faults)
            events += any(e for _, e, _, _ in case.seen)
            errors += case.errors
            for text in case.faults[:2]:
                print("%d: %s" % (seed, text))
            for text in case.soft[:1]:
                print("%d: (%s)" % (seed, text))
            if seed % 10 == 9:
                print("(%d done)" % (seed + 1 - given.seed))
            sys.stdout.flush()
            if given.keep and case.faults:
                os.makedirs(given.keep, exist_ok=True)
                with open(os.path.join(given.keep, "r%d.c" % seed), "w", encoding="ascii") as it:
                    it.write(case.text)
    for how, n in ended.most_common():
        print("%5d %s" % (n, how))
    print("%d routines, %d with faults, %d break at a word, %d errors compared"
          % (given.count, bad, events, errors))
    return 1 if bad else 0
