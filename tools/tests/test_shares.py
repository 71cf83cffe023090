"""tools/shares: shares of known scripts, and scripts written anew with nodes replaced."""

import glob
import os
import re
import subprocess
import sys
import tempfile
import unittest
from xml.etree import ElementTree

TOP = os.path.dirname(os.path.dirname(os.path.dirname(os.path.abspath(__file__))))
sys.path.insert(0, os.path.join(TOP, "tools"))
sys.dont_write_bytecode = True
import assistants as shared  # noqa: E402
from script_writing import Writer  # noqa: E402


def shares(*words):
    done = subprocess.run(
        [sys.executable, "-B", os.path.join(TOP, "tools", "shares")] + list(words),
        stdout=subprocess.PIPE,
        stderr=subprocess.PIPE,
    )
    return done.returncode, done.stdout.decode(), done.stderr.decode()


def example(name):
    return os.path.join(TOP, "examples", "programs", name, "script.fx")


class Written(unittest.TestCase):
    def test_answers_stay(self):
        """Each example written anew has the same answer."""
        compared = 0
        with shared.Program(shared.built()) as program:
            for name in sorted(glob.glob(os.path.join(TOP, "examples", "*", "*", "script.fx"))):
                text = shared.read_text(name)
                try:
                    script = shared.Script(text)
                except shared.Fault:
                    continue
                writer = Writer(script, {})
                again = writer.written([writer.claim(goal) for goal in script.goals])
                first, second = [program.prove(t, ["--workers", "1"]) for t in (text, again)]
                self.assertEqual(
                    (first.status, first.intervals), (second.status, second.intervals), name
                )
                compared += first.status == 0
        self.assertGreater(compared, 25)

    def test_replaced(self):
        """A rounding is taken away wherever it stands: in a definition, a hypothesis, a hint."""
        script = shared.Script(
            "@q = fixed<-3,dn>; y q= x * x; z = y + 1; { x in [0,1] /\\ q(x * x) <= 0.9 "
            "-> z - x in ? }\ny -> q(x * x) { x > 0 };\n"
        )
        node = next(k for k, n in enumerate(script.nodes) if n[0] == "rnd")
        text = Writer(script, {node: script.nodes[node][3]}).written(["z - x in ?"])
        self.assertNotIn("fixed", text)
        again = shared.Script(text)
        self.assertEqual(len(again.hints), 1)
        self.assertNotIn("rnd", [n[0] for n in again.nodes])


class Command(unittest.TestCase):
    def rows(self, out):
        return [
            (row[0], row[1]) for row in re.findall(r"^  (-?[0-9.e-]+) +(-?[0-9.]+)  ", out, re.M)
        ]

    def test_adding_shares(self):
        """Five truncated products: a share is what the coefficient's low bits leave."""
        status, out, _ = shares(example("fir_filter"), "--unit", "2^-15")
        self.assertEqual(status, 0)
        outer, inner, middle = ("0.9375", "22.1"), ("0.75", "17.7"), ("0.875", "20.6")
        self.assertEqual(self.rows(out), [outer, inner, middle, inner, outer, ("0", "0")])
        self.assertIn("add up to the width", out)

    def test_idle_roundings(self):
        """A rounding that never rounds has no share, and hides none."""
        status, out, _ = shares(example("linear_interpolation"), "--unit", "1b-15")
        self.assertEqual(status, 0)
        self.assertEqual([row[1] for row in self.rows(out)], ["0", "100", "0", "0"])
        self.assertEqual(out.count("(never rounds)"), 2)

    def test_what_does_not_add_up(self):
        status, out, _ = shares(example("newton_division"), "--unit", "2^-30")
        self.assertEqual(status, 0)
        self.assertRegex(out, r"come to [0-9.]+, which is [0-9.e-]+ (less|more)\s+than the width")

    def test_picture(self):
        with tempfile.TemporaryDirectory() as folder:
            svg = os.path.join(folder, "s.svg")
            status, _, _ = shares(example("fir_filter"), "--svg", svg)
            self.assertEqual(status, 0)
            tree = ElementTree.parse(svg)
            bars = [it for it in tree.iter() if it.tag.endswith("rect")]
            self.assertEqual(len(bars), 1 + 5)

    def test_wrong_words(self):
        script = example("fir_filter")
        with tempfile.TemporaryDirectory() as folder:
            plain = os.path.join(folder, "p.fx")
            with open(plain, "w") as file:
                file.write("{ x in [0,1] -> x in ? }")
            open_ = os.path.join(folder, "o.fx")
            with open(open_, "w") as file:
                file.write("{ x in [-1,1] -> fixed<-1,dn>(1 / x) in ? }")
            for words in (
                [],
                ["no.such.file"],
                [script, "--goal", "30"],
                [script, "--unit", "x"],
                [plain],
                [open_],
                [script, "--svg", script],
                [script, "--bars"],
            ):
                status, out, err = shares(*words)
                self.assertEqual((status, out, err.count("\n")), (2, "", 1), words)


if __name__ == "__main__":
    unittest.main()
