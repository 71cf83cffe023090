"""tools/counter and counterexamples.py: what is found is false by `fixprove at`, and true goals
are left."""

import os
import re
import subprocess
import sys
import tempfile
import time
import unittest
from fractions import Fraction
from unittest import mock

TOP = os.path.dirname(os.path.dirname(os.path.dirname(os.path.abspath(__file__))))
sys.path.insert(0, os.path.join(TOP, "tools"))
sys.dont_write_bytecode = True
import assistants as shared  # noqa: E402
import counterexamples  # noqa: E402
from script_points import Case  # noqa: E402

EXAMPLES = os.path.join(TOP, "examples", "programs")
# of an example: a goal that is false by a hundredth of its width or by one unit
PLANTED = {
    "biquad": "y - sum in [-16056b-30,1]",
    "fir_filter": "y - exact in [-4308b-25,0]",
    "linear_interpolation": "r - Mr in [-32766b-30,0]",
    "pi_controller": "i in [-1,32767b-15]",
    "q31_multiply": "y in [-1,0.99999]",
    "park_transform": "D * D + Q * Q in [0,1.00005]",
    "newton_division": "r1 - 1 / d in [-1.51e-5,1e-8]",
    "saturation": "r in [-32767,32767]",
    "sine_polynomial": "s - sine in [-1e-9,1.535e-6]",
    "one_pole_filter": "ynew in [-1,0]",
}


def example(name):
    return os.path.join(EXAMPLES, name, "script.fx")


def counter(*words):
    done = subprocess.run(
        [sys.executable, "-B", os.path.join(TOP, "tools", "counter")] + list(words),
        stdout=subprocess.PIPE,
        stderr=subprocess.PIPE,
    )
    return done.returncode, done.stdout.decode(), done.stderr.decode()


class Search(unittest.TestCase):
    def setUp(self):
        self.program = shared.Program(shared.built())
        self.program.__enter__()
        self.addCleanup(self.program.__exit__)
        # searches end by processor time, so that a busy machine finds the same
        clock = mock.patch.object(counterexamples.time, "time", time.process_time)
        clock.start()
        self.addCleanup(clock.stop)

    def test_values(self):
        """What the compiled functions say of points is what exact evaluation says."""
        tried = 0
        for name in sorted(os.listdir(EXAMPLES)):
            script = shared.Script(shared.read_text(example(name)))
            goals = [goal for goal in script.goals if not goal.ask]
            for number in (1, script.cases()):
                case = Case(script, number)
                case.ask(goals)
                for place in list(counterexamples.Search(case, [counterexamples.outside]).starts())[
                    ::40
                ]:
                    told, point = case.told(place), case.point(place)
                    meets = all(script.holds(claim, point) for claim in case.claims)
                    self.assertEqual(told[0] <= 0, meets, (name, point))
                    for goal, over in zip(goals, told[1:]):
                        exact = counterexamples.excess(script, goal, point)
                        self.assertEqual(over > 0, exact is not None and exact > 0, (name, point))
                        tried += 1
        self.assertGreater(tried, 200)

    def test_planted(self):
        """False goals are found, of ten at least nine."""
        found = 0
        for name, goal in PLANTED.items():
            script = shared.Script(shared.read_text(example(name)))
            if name == "one_pole_filter":
                goal = script.goals[2].says + " in [-1,0]"
            text = script.written(goals=[goal])
            for one in counterexamples.find_in(self.program, text, 2.0):
                found, planted = found + 1, shared.Script(text)
                self.assertFalse(planted.holds(planted.goals[0], one.point), name)
                self.assertTrue(planted.meets(one.point), name)
                self.assertIn("point: meets", one.lines)
        self.assertGreaterEqual(found, 9)

    def test_true(self):
        """Of goals that are proved nothing is found."""
        tried = 0
        for name in sorted(os.listdir(EXAMPLES)):
            script = shared.Script(shared.read_text(example(name)))
            tried += sum(1 for goal in script.goals if not goal.ask)
            self.assertEqual(counterexamples.find(self.program, example(name), 0.3), [], name)
        self.assertGreater(tried, 20)

    def test_ties(self):
        """Hypotheses that bind variables to others are met by construction."""
        cases = [
            (
                "{ x in [0,1] /\\ x - X in [0,0] /\\ 2 * y - X in [-1b-20,1b-20] "
                "-> x + y in [0,1.49] }",
                1,
            ),
            ("{ d in [1,2] /\\ r -/ 1 / d in [-1b-20,1b-20] -> d * r in [0.5,1] }", 1),
            ("{ a in [-1,1] /\\ not b - a <= 0.25 /\\ b in [-1,1] -> b - a in [0,1.99] }", 1),
            ("{ @FIX(s * s,-14) /\\ s in [0.5,1] -> s in [0.5,0.99] }", 1),
            ("{ x in [0,1] /\\ x + y in [3,3] -> y in [2,3] }", 0),
        ]
        for text, count in cases:
            self.assertEqual(len(counterexamples.find_in(self.program, text, 1.0)), count, text)

    def test_no_variables(self):
        found = counterexamples.find_in(self.program, "y = 1; { y in [2,3] }", 1.0)
        self.assertEqual([(one.goal, one.value, one.point) for one in found], [(1, "1", {})])

    def test_no_value(self):
        text = "{ x in [-1,1] -> 1 / x in ? /\\ x in ? }"
        found = counterexamples.find_in(self.program, text, 1.0, [1, 2])
        self.assertEqual([(one.goal, one.value) for one in found], [(1, "no value")])

    def test_reached(self):
        """The values reached lie in the proved interval, and take most of it."""
        path = example("fir_filter")
        script = shared.Script(shared.read_text(path))
        known, last = self.program.prove(script.text).intervals[-1], len(script.goals)
        low, high = [
            Fraction(end.value)
            for end in counterexamples.reached(self.program, path, script, last, 2)
        ]
        self.assertTrue(known[0] <= low <= high <= known[1])
        self.assertGreater((high - low) / (known[1] - known[0]), Fraction(9, 10))

    def test_draft(self):
        """`snap`, `excess` and `search`, which other tools call."""
        script = shared.Script("{ @FIX(x,-3) /\\ x in [0,1] -> x * x in [0,0.9] }")
        self.assertEqual(counterexamples.snap(script, "x", Fraction(7, 10)), Fraction(3, 4))
        self.assertEqual(
            counterexamples.excess(script, script.goals[0], {"x": Fraction(1)}), Fraction(1, 10)
        )
        point, tried = counterexamples.search(script, 1, script.goals[0], time.time() + 1)
        self.assertEqual(point, {"x": 1})
        self.assertGreater(tried, 0)


class Command(unittest.TestCase):
    def setUp(self):
        folder = tempfile.TemporaryDirectory()
        self.addCleanup(folder.cleanup)
        self.folder = folder.name

    def made(self, name, text):
        path = os.path.join(self.folder, name)
        with open(path, "w") as file:
            file.write(text)
        return path

    def test_point_is_a_file_for_at(self):
        script = self.made(
            "s.fx",
            "@q = fixed<-15,dn>; p = q(a * b); { @FIX(a,-15) /\\ @FIX(b,-15) /\\ "
            "a in [-1,1] /\\ b in [-1,1] -> p in [-1,32767b-15] /\\ a in [0,1] }",
        )
        status, out, _ = counter(script)
        self.assertEqual(status, 0)
        self.assertIn("word 32768 of 2^-15", out)
        self.assertIn("goal 2 is false, too", out)
        done = subprocess.run(
            [shared.built(), "at", script, self.made("p", out)], stdout=subprocess.PIPE
        )
        lines = done.stdout.decode().splitlines()
        self.assertIn("goal 1: 1, fails", lines)
        self.assertEqual(lines[-1], "point: meets")

    def test_true_goal(self):
        open_ = self.made("t.fx", "{ x in [0,1] -> x * (1 - x) in [0,0.3] }")
        status, out, err = counter(open_, "--seconds", "0.3")
        self.assertEqual((status, out), (1, ""))
        self.assertIn("proves nothing", err)
        status, out, err = counter(self.made("p.fx", "{ x in [0,1] -> x * x in [0,1] }"))
        self.assertEqual((status, out), (1, ""))
        self.assertIn("is proved", err)

    def test_most(self):
        status, out, _ = counter(
            example("linear_interpolation"), "--most", "--unit", "2^-15", "--seconds", "2"
        )
        self.assertEqual(status, 0)
        ends = re.findall(r"at (?:least|most) +\[(\S+), (\S+)\]", out)
        self.assertEqual(len(ends), 4)
        for inner, outer in (ends[0:2], ends[2:4]):
            self.assertTrue(
                Fraction(outer[0])
                <= Fraction(inner[0])
                <= Fraction(inner[1])
                <= Fraction(outer[1]),
                out,
            )

    def test_wrong_words(self):
        script = self.made("w.fx", "{ x in [0,1] -> x in ? }")
        for words in (
            ["no.such.file"],
            [script, "--nothing"],
            [script, "--goal", "2"],
            [script],
            [script, "--most", "--unit", "0"],
            [script, "--seconds", "0"],
            [self.made("bad.fx", "{ x in [0,1] -> "), "--most"],
            [],
        ):
            status, out, err = counter(*words)
            self.assertEqual((status, out, err.count("\n")), (2, "", 1), words)


if __name__ == "__main__":
    unittest.main()
