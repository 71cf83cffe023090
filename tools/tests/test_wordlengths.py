"""Tests of `tools/wordlengths` and of its modules `width_*.py`."""

import itertools
import os
import re
import subprocess
import sys
import tempfile
import unittest
from fractions import Fraction

TOOLS = os.path.dirname(os.path.dirname(os.path.abspath(__file__)))
sys.dont_write_bytecode = True
sys.path.insert(0, TOOLS)
import assistants as shared  # noqa: E402
import width_formats  # noqa: E402
import width_runs  # noqa: E402
import width_search  # noqa: E402
from width_templates import Cost, cost_text, filled, sets_of  # noqa: E402

PROGRAM = os.environ.get("FIXPROVE") or os.path.join(os.path.dirname(TOOLS), "crates", "fx_main",
                                                     "out", "fx_main")
PLOTS = next((python for python in (sys.executable, "/usr/bin/python3") if os.path.exists(python)
              and subprocess.call([python, "-c", "import matplotlib"],
                                  stderr=subprocess.DEVNULL) == 0), None)
THREE = r"""# three products, each with its own fraction bits
@a = fixed<-{a},dn>; @b = fixed<-{b},nu>; @c = fixed<-{c},dn>;
p = a(0.3 * x);
q = b(0.11 * z);
y = c(p + q);
{ @FIX(x,-12) /\ @FIX(z,-12) /\ x in [-1,1] /\ z in [-1,1]
  -> y - (0.3 * x + 0.11 * z) in [-1e-2,1e-2] /\ y in ? }
"""


def run(*words, python=sys.executable, folder=None):
    """Status, output and errors of the tool."""
    done = subprocess.run([python, "-B", os.path.join(TOOLS, "wordlengths")] + list(words)
                          + ["--program", PROGRAM], stdout=subprocess.PIPE, stderr=subprocess.PIPE,
                          cwd=folder)
    return done.returncode, done.stdout.decode(), done.stderr.decode()


class Templates(unittest.TestCase):

    def test_signs(self):
        for template, value, wanted in (
                ("fixed<-{n},dn>", 4, "fixed<-4,dn>"), ("fixed<-{n},dn>", -4, "fixed<4,dn>"),
                ("fixed<-{n},dn>", 0, "fixed<-0,dn>"), ("@FIX(x,-{n})", -4, "@FIX(x,4)"),
                ("x -{n}", -3, "x --3"), ("x - {n}", -3, "x - -3"), ("(x) -{n}", -3, "(x) --3"),
                ("|x| -{n}", -3, "|x| --3"), ("x in [-{n},{n}]", -3, "x in [3,-3]"),
                ("x >= -{n}", -3, "x >= 3"), ("x in [+{n},1]", -3, "x in [-3,1]"),
                ("1b-{n}", -3, "1b3"), ("2.5e-{n} * x", -3, "2.5e3 * x"), ("0x1p-{n}", -3, "0x1p3"),
                ("x1b -{n}", -3, "x1b --3"), ("0x1b-{n}", -3, "0x1b--3"),
                ("y = -{n};", -3, "y = 3;"),
                ("2 * -{n}", -3, "2 * 3"), ("{n+3} {n-1} {2*n} {2*n+1}", 5, "8 4 10 11"),
                ("{ m } {n}", 5, "{ m } 5")):
            self.assertEqual(filled(template, {"n": value}), wanted, template)

    def test_signs_say_the_same(self):
        # what is filled in has the value of the sum, whatever the sign
        for value in (-3, -1, 0, 2):
            text = filled("x -{n} * 1b-{n} + -{n}", {"n": value})
            script = shared.Script("{ %s in ? }" % text)
            found = script.value(script.goals[0].left, {"x": Fraction(7)})
            self.assertEqual(found, 7 - value * Fraction(2) ** -value - value)

    def test_sets(self):
        self.assertEqual(sets_of(["n=1..3", "k=-2..0"], "{n} {2*k}"),
                         {"n": range(1, 4), "k": range(-2, 1)})
        for texts, template in ((["n=3..1"], "{n}"), (["n=1..600"], "{n}"), (["n=1"], "{n}"),
                                (["n=1..2", "n=1..2"], "{n}"), (["k=1..2"], "{n}"),
                                (["n=1..2"], "{n} {k}")):
            with self.assertRaises(shared.Fault):
                sets_of(texts, template)
        sets_of(["n=1..2"], "{n} # {k}\n")

    def test_costs(self):
        ranges = {"n": range(1, 9), "m": range(0, 9)}
        for text, values, wanted in (("3*n + 2*m", (4, 5), 22), ("n*(m+2)", (4, 5), 28),
                                     ("0.5*n+m", (3, 1), Fraction(5, 2)), ("n*m*2", (3, 4), 24)):
            self.assertEqual(Cost(text, ranges)(values), wanted)
        for text in ("n", "n-m", "n+m+", "n m", "n+k+m", "(n+m", "n+m)", "n/m", "", "2", "n+m+-1"):
            with self.assertRaises(shared.Fault, msg=text):
                Cost(text, ranges)
        with self.assertRaises(shared.Fault):
            Cost("n*m", {"n": range(-1, 9), "m": range(0, 9)})
        self.assertEqual(cost_text(Fraction(1, 3)), "0.3334")


class Formats(unittest.TestCase):

    def test_least_width(self):
        for low, high, fraction, wanted in (
                (-1, 1, 15, 17), (-1, Fraction(32767, 32768), 15, 16), (0, 0, 3, 1), (-1, 0, 0, 1),
                (0, 1, 0, 2), (Fraction(-1, 3), Fraction(1, 3), 1, 1), (5, 6, 0, 4),
                (-9, -5, 0, 5)):
            low, high = Fraction(low), Fraction(high)
            width = width_formats.width_of(low, high, fraction)
            self.assertEqual(width, wanted)
            if fraction < 4:
                inside = [k for k in range(-100, 100) if low <= Fraction(k, 2 ** fraction) <= high]
                self.assertTrue(all(-(1 << width - 1) <= k < 1 << width - 1 for k in inside))

    def test_powers(self):
        script = shared.Script("@q = fixed<-4,dn>; y = q(x * 0.1); s = y + 3b-6 * w; t = |s| - 8;\n"
                               "{ @FIX(w,-2) /\\ x in [0,1] -> s in ? /\\ t * t in ? /\\ x in ? }")
        found = width_formats.finest(script)
        wanted = {"y": -4, "s": -8, "t": -8, "x": None, "w": -2}
        for name, power in wanted.items():
            node = script.defined.get(name, script.variables.get(name))
            self.assertEqual(found[node], power, name)

    def rows(self, text):
        with shared.Program(PROGRAM) as program:
            found = width_formats.formats(program, shared.Script(text), program.prove(text), [],
                                          None, 2)
        return {row.name: row for row in found}

    def test_rows_by_halving(self):
        # without halving the range is [0, 1], for which 2^8 would be a value too many
        row = self.rows("@q = fixed<-8,dn>; y = q(x * (1 - x)); { x in [0,1] -> y in [0,0.3] }\n"
                        "y $ x;")["y"]
        self.assertEqual((row.width, row.fraction), (8, 8))
        self.assertLess(row.interval[1], Fraction(3, 10))

    def test_rows(self):
        rows = self.rows("@q = fixed<-15,dn>; y = q(x * x); e = x * 0.1;\n"
                         "{ @FIX(x,-15) /\\ x in [-1,32767b-15] -> y in ? /\\ e in ? }")
        self.assertEqual((rows["x"].width, rows["x"].fraction), (16, 15))
        self.assertEqual((rows["y"].width, rows["y"].fraction), (17, 15))
        self.assertIsNone(rows["e"].width)
        self.assertEqual(rows["y"].interval, (0, 1))


class Runs(unittest.TestCase):

    def test_lists(self):
        texts = ["{ x in [0,1] -> x in ? }", "{ x in [0,1] -> x in [0,0.5] }", "{ x ^ }"] * 30
        with shared.Program(PROGRAM) as program:
            found = width_runs.batched(program, texts, [], None, 4)
        self.assertEqual([answer.status for answer in found], [0, 1, 3] * 30)
        self.assertEqual(found[3].intervals, [(0, 1)])

    def test_boxes(self):
        # 1,024 boxes are past those of a list, and not past those of a run
        text = "{ x in [0,1] -> x * (1 - x) in [0,1] }\n$ x in 64;\n$ z in 16;\n".replace(
            "x in [0,1] ->", "x in [0,1] /\\ z in [0,1] ->")
        with shared.Program(PROGRAM) as program:
            one, few = (width_runs.batched(program, [text], [], boxes, 2)[0]
                        for boxes in (None, 600))
        self.assertEqual((one.status, few.status), (0, 4))


class Searches(unittest.TestCase):

    def searched(self, template, sets, cost):
        """What the tool found, beside the cheapest of all values in the ranges, by the program."""
        ranges = sets_of(sets, template)
        with shared.Program(PROGRAM) as program:
            progress = width_runs.Progress(60)
            judge = width_runs.Judge(program, template, list(ranges), [], None, 2, progress)
            price = Cost(cost, ranges)
            search = width_search.Search(judge, list(ranges.values()), price)
            search.run()
            self.assertTrue(search.ended)
            points = list(itertools.product(*ranges.values()))
            texts = [filled(template, dict(zip(ranges, point))) for point in points]
            fine = [point for point, answer
                    in zip(points, width_runs.batched(program, texts, [], None, 2))
                    if answer.status == 0]
        return search, price, fine

    def test_equal_to_the_table(self):
        for cost in ("a+b+c", "4*a+b+2*c", "a+3*b*c"):
            search, price, fine = self.searched(THREE, ["a=6..11", "b=5..10", "c=6..11"], cost)
            self.assertIn(search.best, fine)
            self.assertEqual(price(search.best), min(map(price, fine)), cost)
            for point in search.less(search.best).values():
                self.assertNotIn(point, fine)

    def test_more_is_worse(self):
        # the more m, the less is asked: nothing is proved but with few
        template = r"@a = fixed<-{n},dn>; { x in [0,1] -> a(x) - x in [-1b-{m},0] }"
        search, price, fine = self.searched(template, ["n=1..12", "m=6..12"], "n+m")
        self.assertEqual(search.best, (6, 6))
        self.assertEqual(price(search.best), min(map(price, fine)))

    def test_every(self):
        ranges = sets_of(["a=5..12", "b=5..12", "c=5..12"], THREE)
        with shared.Program(PROGRAM) as program:
            judge = width_runs.Judge(program, THREE, list(ranges), [], None, 2,
                                     width_runs.Progress(60))
            search = width_search.Search(judge, list(ranges.values()), Cost("a+b+c", ranges))
            search.run()
            worse = search.moved(search.best, (0, 1))
            self.assertIsNone(width_search.every(search, search.cost(search.best))[1])
            found = width_search.every(search, search.cost(worse))[1]
            self.assertEqual(search.cost(found), search.cost(search.best))

    def test_shares(self):
        shares = width_search.Shares((10, 10), [0.5, 0.2], [1.0, 1.0], [[0.25, 0.1], [0.125, 0.1]])
        self.assertAlmostEqual(shares.over((9, 10)), (0.75 - 0.125) / (1 - 0.125))
        self.assertTrue(shares.fits((9, 9)))
        self.assertFalse(shares.fits((8, 9)))


class Tool(unittest.TestCase):

    def setUp(self):
        self.folder = tempfile.TemporaryDirectory()
        self.addCleanup(self.folder.cleanup)

    def made(self, name, text):
        path = os.path.join(self.folder.name, name)
        with open(path, "w") as file:
            file.write(text)
        return path

    def prove(self, text):
        with shared.Program(PROGRAM) as program:
            return program.prove(text).status

    def test_optimise(self):
        template, out = self.made("t.fxt", THREE), os.path.join(self.folder.name, "out.fx")
        status, said, _ = run(template, "--set", "a=4..14", "--set", "b=4..14", "--set", "c=4..14",
                              "--optimise", "--cost", "2*a+b+c", "--exhaustive", "--write", out)
        self.assertEqual(status, 0)
        found = {n: int(v) for n, v in
                 re.findall(r"(\w) = (\d+)", re.search(r"^found: (.*)", said, re.M).group(1))}
        self.assertEqual(self.prove(filled(THREE, found)), 0)
        for name in found:
            self.assertIn("  %s = %d: unproved\n" % (name, found[name] - 1), said)
            self.assertEqual(self.prove(filled(THREE, dict(found, **{name: found[name] - 1}))), 1)
        self.assertIn("no bit less of any one is proved", said)
        self.assertRegex(said, r"none of the \d+ cheaper values in the ranges is proved")
        self.assertRegex(said, r"\nx +\[-1, 1\] +s14\.12\n")
        with open(out) as file:
            self.assertEqual(file.read(), filled(THREE, found))

    def test_none(self):
        status, said, _ = run(self.made("t.fxt", THREE), "--set", "a=1..3", "--set", "b=1..9",
                              "--set", "c=1..9", "--optimise")
        self.assertEqual(status, 1)
        self.assertRegex(said, r"no uniform width proves|is false")

    def test_faults(self):
        template = self.made("t.fxt", "@q = fixed<-{n},dn>; { x in [0,1] -> q(x) - x in ? }")
        folder = self.folder.name
        wide = ["--set", "n=4..9"]
        for words in (["--optimise"] + wide, ["--cost", "n"] + wide, ["--write", "x"] + wide,
                      ["--optimise", "--fast"] + wide, ["--set", "n=4.9"],
                      ["--report", "x.gif"] + wide, ["--optimise", "--cost", "n*"] + wide,
                      ["--jobs", "0"] + wide, ["--what"] + wide,
                      ["--optimise", "--write", template] + wide, ["--goal", "2"] + wide,
                      ["--svg", template] + wide, ["--exhaustive"] + wide,
                      ["--optimise", "--seconds", "0"] + wide):
            before = sorted(os.listdir(folder))
            status, said, errors = run(template, *words, folder=folder)
            self.assertEqual((status, said, errors.count("\n")), (2, "", 1), (words, errors))
            self.assertEqual(sorted(os.listdir(folder)), before)

    def test_fast(self):
        template = self.made("t.fxt", "@q = fixed<-{n},dn>;\n"
                             "{ x in [0,1] -> q(x) - x in [-1b-9,0] }")
        status, said, _ = run(template, "--set", "n=4..24", "--fast")
        self.assertEqual(status, 0)
        self.assertIn("the least n that proves all goals: 9 ", said)
        self.assertIn("8 isn't proved", said)
        self.assertIn("it is the first value", run(template, "--set", "n=9..24", "--fast")[1])

    @unittest.skipUnless(PLOTS, "there is no matplotlib")
    def test_reports(self):
        template = self.made("t.fxt", THREE)
        fronts = {"svg": b"<?xml", "pdf": b"%PDF", "png": b"\x89PNG"}
        for kind, words in (("svg", ["--optimise"]), ("png", ["--set", "c=11..12"])):
            out = os.path.join(self.folder.name, "out." + kind)
            sets = ["--set", "a=9..12", "--set", "b=9..12", "--set", "c=9..12"]
            given = sets + words if "--optimise" in words else ["--set", "n=9..12"]
            path = template if "--optimise" in words else self.made(
                "n.fxt", "@q = fixed<-{n},dn>; { x in [0,1] -> q(x) - x in [-1b-10,0] }")
            status, _, errors = run(path, "--report", out, *given, python=PLOTS)
            self.assertEqual(status, 0, errors)
            with open(out, "rb") as file:
                data = file.read()
            self.assertTrue(data.startswith(fronts[kind]))
            if kind == "svg":
                for text in ("found", "uniform", "word length", "t.fxt", "sha256"):
                    self.assertIn(text.encode(), data)


if __name__ == "__main__":
    unittest.main()
