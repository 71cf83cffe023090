"""tools/decimals: decimals hold what the lines say, and wrong words end at once."""

import os
import re
import subprocess
import sys
import tempfile
import unittest
from fractions import Fraction

TOP = os.path.dirname(os.path.dirname(os.path.dirname(os.path.abspath(__file__))))
sys.path.insert(0, os.path.join(TOP, "tools"))
sys.dont_write_bytecode = True
import assistants as shared  # noqa: E402


def decimals(*words, given=None, **env):
    done = subprocess.run(
        [sys.executable, "-B", os.path.join(TOP, "tools", "decimals")] + list(words),
        stdout=subprocess.PIPE,
        stderr=subprocess.PIPE,
        input=given,
        env=dict(os.environ, **env),
        timeout=60,
    )
    return done.returncode, done.stdout.decode(), done.stderr.decode()


class Filter(unittest.TestCase):
    def test_ends(self):
        """Decimals lie outward, are exact after `=`, and have the digits that were asked."""
        lines = (
            "a in [-1b-15, 1b1]\nb in [-32767b-15, 178956971b-30]\nc in [-inf, 5b-3]\nd in empty\n"
        )
        for digits in ("3", "6", "20"):
            status, out, _ = decimals(digits, given=lines.encode())
            self.assertEqual(status, 0)
            for line in out.splitlines()[:2]:
                exact = [shared.value_of(end) for end in re.findall(r"[\[ ](-?\d+b-?\d+)", line)]
                shown = re.search(r"# \[(=?)(\S+), (=?)(\S+)\]", line).groups()
                self.assertLessEqual(Fraction(shown[1]), exact[0])
                self.assertGreaterEqual(Fraction(shown[3]), exact[1])
                self.assertEqual(shown[0] == "=", Fraction(shown[1]) == exact[0])
                self.assertEqual(shown[2] == "=", Fraction(shown[3]) == exact[1])
            self.assertIn("c in [-inf, 5b-3]  # [-inf, =0.625]\nd in empty\n", out)

    def test_values(self):
        _, out, _ = decimals(given=b"goal 1: -1/48, fails\npoint: meets\n")
        self.assertEqual(out, "goal 1: -1/48, fails  # [-0.0208334, -0.0208333]\npoint: meets\n")


class Run(unittest.TestCase):
    def setUp(self):
        folder = tempfile.TemporaryDirectory()
        self.addCleanup(folder.cleanup)
        self.script = os.path.join(folder.name, "s.fx")
        with open(self.script, "w") as file:
            file.write("{ x in [0,0.1] -> x <= 0.1 }")

    def test_program(self):
        """The program of --program, and of the environment; its status."""
        program = shared.built()
        for words, env in (
            (("--program", program), {"FIXPROVE": "/no/such/file"}),
            (("--program=" + program,), {}),
            ((), {"FIXPROVE": program}),
        ):
            status, out, err = decimals(*words, "prove", self.script, **env)
            self.assertEqual((status, out, err), (1, "unproved: goal 1 at the whole box\n", ""))

    def test_wrong_words(self):
        """One line, status 2, and nothing is run."""
        script = self.script
        with open(script, "rb") as file:
            before = file.read()
        for words in (
            ["proof", script],
            ["--nothing", "prove", script],
            ["--digits", "0", "prove", script],
            ["--digits", "x"],
            ["--program"],
            ["--program", "/no/such/file", "prove", script],
            ["--program", "/", "prove", script],
            [script],
        ):
            status, out, err = decimals(*words)
            self.assertEqual((status, out, err.count("\n")), (2, "", 1), words)
        with open(script, "rb") as file:
            self.assertEqual(file.read(), before)

    def test_help(self):
        status, out, err = decimals("--help")
        self.assertEqual((status, err), (0, ""))
        self.assertIn("--program FILE", out)


if __name__ == "__main__":
    unittest.main()
