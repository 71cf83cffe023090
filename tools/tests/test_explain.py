"""tools/explain: what it says of refusals, of false, open and proved goals."""

import os
import re
import subprocess
import sys
import tempfile
import unittest
from fractions import Fraction

TOP = os.path.dirname(os.path.dirname(os.path.dirname(os.path.abspath(__file__))))
sys.path.insert(0, os.path.join(TOP, "tools"))
sys.dont_write_bytecode = True
import assistants as shared  # noqa: E402
from explained import compared  # noqa: E402
from refusals import place, slip  # noqa: E402


class Ends(unittest.TestCase):
    def told(self, known, bounds):
        goal = shared.Script("{ x in %s }" % bounds).goals[0]
        text = compared(known, goal)
        ends = re.findall(r"\[(\S+), (\S+)\]", text)
        return text, [[Fraction(end) for end in pair] for pair in ends]

    def test_inside_never_seems_outside(self):
        """What is proved to lie inside is shown so, and what lies outside is shown so."""
        one = Fraction(1, 1 << 31)
        for known, bounds in (
            ((-2, 2 - 2 * one), "[-2,0x7fffffffp-30]"),
            ((-2, 2), "[-2,0x7fffffffp-30]"),
            ((-2147450880, 2147483647), "[-2147483648,2147483647]"),
            ((-2147483648, 2147483648), "[-2147483648,2147483647]"),
            ((-1 - one * one, Fraction(3, 10)), "[-1,0.3]"),
        ):
            known = tuple(Fraction(end) for end in known)
            text, (shown, asked) = self.told(known, bounds)
            goal = shared.Script("{ x in %s }" % bounds).goals[0]
            self.assertEqual(shown[0] >= asked[0], known[0] >= goal.lower, text)
            self.assertEqual(shown[1] <= asked[1], known[1] <= goal.upper, text)
            self.assertTrue(shown[0] <= known[0] and known[1] <= shown[1], text)


class Refusals(unittest.TestCase):
    def test_slips(self):
        for text, wanted in (
            ("{ x in [0,1] -> x >> 3 in ? }", "fixed<-15,dn>(x * 1b-3)"),
            ("{ 0 <= x -> x in ? }", "x >= 0"),
            ("{ x in [0,1] -> x^2 in ? }", "powers"),
            ("{ x in [0,1] -> x < 2 }", "strict"),
            ("in x : s16.15 [0,0.5];\ny : s16.15 dn = x * x;\nout y;\n", "fixprove fix"),
            ("{ x in [0,1/2] -> x in ? }", "no expression"),
            ("{ x in [0,1] -> sqrt(x) in ? }", "no root"),
        ):
            with shared.Program(shared.built()) as program:
                line = program.prove(text).lines[0]
            self.assertTrue(line.startswith("script: "), text)
            self.assertIn(wanted, slip(text, int(line.split()[-1])), text)

    def test_end(self):
        """The end of a text is shown at its last line with something."""
        row, column, shown, caret = place("{ x in [0,1] -> x in ?\n\n", 24)
        self.assertEqual((row, column), (1, 23))
        self.assertEqual(caret, " " * 22 + "^")


class Command(unittest.TestCase):
    def explain(self, text, *words):
        with tempfile.TemporaryDirectory() as folder:
            name = os.path.join(folder, "s.fx")
            with open(name, "w") as file:
                file.write(text)
            done = subprocess.run(
                [sys.executable, "-B", os.path.join(TOP, "tools", "explain"), name] + list(words),
                stdout=subprocess.PIPE,
                stderr=subprocess.PIPE,
            )
        return done.returncode, done.stdout.decode(), done.stderr.decode()

    def test_false(self):
        status, out, _ = self.explain("{ x in [0,1] -> x * x in [0,2] /\\ x + x in [0,1.9] }")
        self.assertEqual(status, 0)
        self.assertIn("Goal 2 is false: x + x is 2 at x = 1.", out)
        self.assertRegex(out, r"1  x \* x: settled.*\n  2  x \+ x: false")
        self.assertNotIn("pieces", out)
        self.assertNotIn("hints", out)

    def test_no_value(self):
        _, out, _ = self.explain("{ x in [-1,1] -> 1 / x in ? }")
        self.assertIn("Goal 1 has no value at x = 0.", out)

    def test_rounds(self):
        """What 64 rounds prove is said first, and no pieces are tried."""
        text = "y1 = x + x; "
        for k in range(2, 26):
            text += "y%d = y%d * 0.5 + x; " % (k, k - 1)
        _, out, _ = self.explain(text + "{ x in [0,1] -> y25 in [0,3] }", "--rounds", "10")
        self.assertIn("With --rounds 64: proved.", out)
        self.assertNotIn("pieces", out)

    def test_needless(self):
        """A hypothesis can go if that is so with 64 rounds; one that a proof needs can't."""
        _, out, _ = self.explain("{ x in [0,1] /\\ y in [0,1] -> x <= 1 }")
        self.assertIn("hypothesis y in [0,1]", out)
        self.assertNotIn("hypothesis x in [0,1]", out)

    def test_wrong_words(self):
        for words in (["--nothing"], ["--seconds", "0"], ["--program", "/bin/true"]):
            status, out, err = self.explain("{ x in ? }", *words)
            self.assertEqual((status, out, err.count("\n")), (2, "", 1), words)


if __name__ == "__main__":
    unittest.main()
