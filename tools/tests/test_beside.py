"""What `tools/beside` compares: lines of Gappa, ends, random scripts, and whole runs.

Whole runs need Gappa and the program that `FIXPROVE` names, or the built one; without them they
are left out, with the reason.
"""

import os
import shutil
import subprocess
import sys
import tempfile
import unittest
from fractions import Fraction

TOP = os.path.dirname(os.path.dirname(os.path.dirname(os.path.abspath(__file__))))
sys.path.insert(0, os.path.join(TOP, "tools"))
sys.dont_write_bytecode = True
import beside_gappa as sides  # noqa: E402
from beside_texts import KINDS, routine  # noqa: E402
from script_text import Script  # noqa: E402

PROGRAM = os.environ.get("FIXPROVE") or os.path.join(TOP, "crates", "fx_main", "out", "fx_main")
TOOL = os.path.join(TOP, "tools", "beside")


def run(*words):
    """A run of the tool: status, output, errors."""
    done = subprocess.run([sys.executable, TOOL] + list(words), stdout=subprocess.PIPE,
                          stderr=subprocess.PIPE, check=False, stdin=subprocess.DEVNULL)
    return done.returncode, done.stdout.decode("latin-1"), done.stderr.decode("latin-1")


class Answers(unittest.TestCase):
    """Texts as Gappa 1.4.1 prints them."""

    TEXT = ("@q = fixed<-15,dn>; y = q(x); z = y; { x in [1,2] -> y * y in ? /\\ y - x in ?"
            " /\\ y -/ x in ? /\\ y <= 3 /\\ q(x + 1) * -3 in ? /\\ -x * x in ? /\\ 0.1 * x in ? }")
    PRINTED = """Warning: renaming identifier 'y' as 'z' at line 1 column 37
Results:
  z -/ x in [-1b-15 {-3.05176e-05, -2^(-15)}, 0]
  -(x * x) in [-4, -1]
  z * z in [1, 4]
  1e-1 * x in [230584300921369395b-61 {0.1, 2^(-3.32193)}, 922337203685477581b-62 {0.2, 2^(-2)}]
  z - x in [-1b-15 {-3.05176e-05, -2^(-15)}, inf]
  fixed<-15,dn>(x + 1) * -3 in [-9, -6]
"""

    def test_lines(self):
        """Each line is given to the goal whose expression it has, whatever their order."""
        answer = sides.GappaAnswer(self.TEXT, sides.Run(0, self.PRINTED, 0.1))
        unit = Fraction(1, 1 << 15)
        self.assertEqual(answer.word, "proved")
        self.assertEqual(answer.unmatched, [])
        self.assertEqual(answer.intervals, [
            (1, 4), (-unit, None), (-unit, 0), (-9, -6), (-4, -1),
            (Fraction(230584300921369395, 1 << 61), Fraction(922337203685477581, 1 << 62))])

    def test_words(self):
        """Who ends how."""
        text = "{ x in [1,2] -> x in ? }"
        rows = [(0, "Results:\n  x in [1, 2]\n", "proved", [(1, 2)]),
                (0, "Results:\n  %s\n" % sides.EMPTY, "proved", ["empty"]),
                (1, "Error: some properties were not satisfied:\n  BND(x)\n", "unproved", [None]),
                (1, "Error: no contradiction was found.\n", "unproved", [None]),
                (1, "Error: syntax error, unexpected '<' at line 1 column 5\n", "refused", []),
                (None, "", "late", [])]
        for status, printed, word, intervals in rows:
            answer = sides.GappaAnswer(text, sides.Run(status, printed, 0.1))
            self.assertEqual((answer.word, answer.intervals), (word, intervals))
        other = sides.GappaAnswer(text, sides.Run(0, "Results:\n  x + 1 in [2, 3]\n", 0.1))
        self.assertEqual((other.unmatched, other.intervals), (["x + 1"], [None]))

    def test_compared(self):
        """Ends are exact: a difference of 2^-500 counts."""
        tiny = Fraction(1, 1 << 500)
        rows = [((0, 1), (0, 1), "equal"), ((0, 1), (0, 1 + tiny), "narrower"),
                ((0, 1 + tiny), (0, 1), "wider"), ((0, 2), (1, 3), "overlapping"),
                ((0, 1), (1 + tiny, 2), "disjoint"), ((0, 1), (1, 2), "overlapping"),
                ((0, None), (0, 5), "wider"), ((None, 1), (None, None), "narrower"),
                ("empty", (0, 1), "narrower"), ("empty", "empty", "equal"),
                ((0, 1), "empty", "wider"), ("none", (0, 1), "narrower")]
        for ours, other, wanted in rows:
            self.assertEqual(sides.compared(ours, other), wanted, (ours, other))
        self.assertEqual(sides.share((0, 1), (0, 4)), Fraction(1, 4))
        self.assertIsNone(sides.share((0, 1), (0, None)))

    def test_timed(self):
        """A run that takes too long ends, and its processor time is counted."""
        late = sides.timed([sys.executable, "-c", "while True: pass"], 0.5)
        self.assertIsNone(late.status)
        text = "import time\nwhile time.process_time() < 0.2: pass"
        busy = sides.timed([sys.executable, "-c", text], 600)
        self.assertEqual(busy.status, 0)
        self.assertGreaterEqual(busy.seconds, 0.2)
        done = sides.timed([sys.executable, "-c", "import sys; print(5); sys.exit(3)"], 600)
        self.assertEqual((done.status, done.text), (3, "5\n"))


class Random(unittest.TestCase):
    """Random scripts."""

    def test_same(self):
        """Scripts are the same in each run, differ, and spell scripts of every kind."""
        texts = [routine(7, number) for number in range(1, 2 * len(KINDS) + 1)]
        self.assertEqual(texts[4], routine(7, 5))
        self.assertNotEqual(texts[4], routine(8, 5))
        self.assertEqual(len(set(texts)), len(texts))
        for text in texts:
            script = Script(text)
            self.assertTrue(script.goals)
            for line in text.splitlines():
                # fixprove and Gappa read a minus before a product in different ways
                self.assertNotRegex(line, r"-[a-z(][^-+]*\*.*q=")

    def test_bounds_hold(self):
        """A goal with bounds is true at corners and at random points."""
        for number in (1, 2, 5, 8, 11):
            script = Script(routine(1, number))
            for point in script.points(20, 5):
                for goal in script.goals:
                    if not goal.ask and script.meets(point):
                        self.assertTrue(script.holds(goal, point), (number, point))


class Tool(unittest.TestCase):
    """The command."""

    def test_words(self):
        """Help, and words that aren't right: one line, status 2."""
        status, out, _ = run("--help")
        self.assertEqual(status, 0)
        self.assertIn("--threshold", out)
        script = os.path.join(TOP, "scripts", "pi_step.fx")
        for words in [(), (script, "--random", "3"), ("--random", "0"),
                      (script, "--threshold", "x"), (script, "--seconds", "0"),
                      ("/nowhere.fx",), (script, "--what"),
                      (script, "--gappa", "/nowhere/gappa"), (script, "--program", "/nowhere/p")]:
            status, out, errors = run(*words)
            self.assertEqual((status, out, errors.count("\n")), (2, "", 1), (words, errors))

    def test_runs(self):
        """Pairs, one text for both, a translation, and what isn't served."""
        if shutil.which("gappa") is None:
            self.skipTest("Gappa isn't there (Debian's package gappa)")
        if not os.access(PROGRAM, os.X_OK):
            self.skipTest("%s isn't built" % PROGRAM)
        with tempfile.TemporaryDirectory() as folder:
            def write(name, text):
                with open(os.path.join(folder, name), "w") as file:
                    file.write(text)
                return os.path.join(folder, name)
            same = write("same.fx", "{ x in [1,2] -> x * x in ? /\\ x + 1 in ? }\n")
            pair = write("pair.fx", "{ x in [1,3] -> x in ? }\n")
            write("pair.g", "{ x in [1,2] -> x in ? }\n")
            apart = write("apart.fx", "{ x in [5,6] -> x in ? }\n")
            write("apart.g", "{ x in [1,2] -> x in ? }\n")
            alone = write("alone.g", "{ x in [-1,1] -> x * x - x in [-0.2501,2] }\n")
            root = write("root.g", "{ x in [1,2] -> sqrt(x) in ? }\n")
            minus = write("minus.fx", "@q = int<dn>; z q= -x * x; { x in [1.5,1.5] -> z in ? }\n")
            bad = write("bad.g", "{ x in [1,2] -> \n x on ? }\n")
            words = ("--program", PROGRAM)
            status, out, errors = run(same, pair, alone, *words)
            self.assertEqual((status, errors), (0, ""))
            lines = out.splitlines()
            self.assertIn("same.fx: proved by both; 2 equal;", lines[0])
            self.assertIn("pair.fx: proved by both; 1 wider;", lines[1])
            self.assertIn("goal 1: x in [1, 3], wider; Gappa: [1, 2], 2 times as wide", lines[2])
            self.assertIn("alone.g: proved by both;", lines[3])
            self.assertTrue(lines[4].startswith("3 scripts: 3 proved by both, 0 by fixprove alone"))
            status, out, errors = run(apart, *words)
            self.assertEqual((status, errors), (1, ""))
            self.assertIn("0 overlapping, 1 disjoint", out)
            status, out, errors = run(minus, *words)
            self.assertEqual((status, errors), (0, ""))
            self.assertIn("fixprove gets -(a * b)\n", out)
            self.assertIn("minus.fx: proved by both; 1 equal;", out)
            status, out, errors = run(bad, *words)
            self.assertEqual((status, errors.count("\n")), (2, 1))
            self.assertIn("bad.g:2:4: no script of Gappa: unexpected on", errors)
            status, out, errors = run(root, *words)
            self.assertEqual((status, errors), (0, ""))
            self.assertIn("root.g:1:17: sqrt isn't served", out)
            self.assertIn("1 not served", out)


if __name__ == "__main__":
    unittest.main()
