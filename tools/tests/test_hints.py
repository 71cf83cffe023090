"""Tests of `hints`: its patterns propose identities alone, corner forms are exact, rewritings say
the same, and the tool prints what the program proves.

    python3 -m unittest discover -s tools/tests        (FIXPROVE names the built program)
"""

import os
import random
import subprocess
import sys
import tempfile
import time
import unittest
from fractions import Fraction

TOOLS = os.path.dirname(os.path.dirname(os.path.abspath(__file__)))
sys.path.insert(0, TOOLS)
sys.dont_write_bytecode = True
import assistants as shared  # noqa: E402
import hint_corners  # noqa: E402
import hint_rewritings as rewritings  # noqa: E402
from hint_search import FIRST, Search  # noqa: E402
from hint_steps import Steps  # noqa: E402
from script_text import Script  # noqa: E402

BUILT = os.path.join(os.path.dirname(TOOLS), "crates", "fx_main", "out", "fx_main")
PROGRAM = os.environ.get("FIXPROVE", BUILT)

CONTROLLER = """@q = fixed<-15,dn>;
e = r - y; p q= k * e; i1 = i + q(c * e); u = p + i1;
E = r - Y; I1 = I + c * E; U = k * E + I1;
{ r in [-1,1] /\\ y in [-1,1] /\\ i in [-1,1] /\\ k in [0.5,2] /\\ c in [0.01,0.1]
  /\\ y - Y in [-1b-10,1b-10] /\\ i - I in [-1b-8,1b-8] -> u - U in ? }
"""
SIZES = """@q = fixed<-16,dn>;
y q= x * g; e = r - |y|; Y = X * G; E = r - |Y|;
{ x in [-1,1] /\\ g in [0.25,4] /\\ r in [0.4,0.5]
  /\\ x - X in [-1b-14,1b-14] /\\ g - G in [-1b-10,1b-10] -> e - E in ? }
"""
LINE = """r = x + fixed<-15,dn>((z - x) * k);
{ @FIX(x,-15) /\\ @FIX(z,-15) /\\ @FIX(k,-15) /\\ x in [0,1] /\\ z in [0,1] /\\ k in [0,1]
  -> r in [0,1] }
"""
CLIPPED = """@q = fixed<-15,dn>;
v = x + q(k * (x - o)); V = x + k * (x - O);
{ x in [-1,1] /\\ o in [-1,1] /\\ k in [0.2,0.7] /\\ o - O in [-1b-12,1b-12]
  -> v >= 1 /\\ y in [1,1] \\/ v in [-1,1] /\\ y - v in [0,0] \\/ v <= -1 /\\ y in [-1,-1]
  -> V >= 1 /\\ Y in [1,1] \\/ V in [-1,1] /\\ Y - V in [0,0] \\/ V <= -1 /\\ Y in [-1,-1]
  -> y - Y in ? }
"""


def scripts():
    """The texts of all scripts of the two folders, and those above."""
    for folder in ("hint_scripts", "wide_scripts"):
        for name in sorted(os.listdir(os.path.join(TOOLS, folder))):
            yield name, shared.read_text(os.path.join(TOOLS, folder, name))
    for name, text in (
        ("controller", CONTROLLER),
        ("sizes", SIZES),
        ("line", LINE),
        ("clipped", CLIPPED),
    ):
        yield name, text


def hinted(*words):
    """Status, standard output and standard error of `hints`."""
    command = [sys.executable, "-B", os.path.join(TOOLS, "hints")] + list(words)
    done = subprocess.run(
        command + ["--program", PROGRAM], stdout=subprocess.PIPE, stderr=subprocess.PIPE
    )
    return done.returncode, done.stdout.decode(), done.stderr.decode()


class Proposals(unittest.TestCase):
    """What is proposed is true."""

    def proposals(self, script):
        """All rewriting hints that are proposed for a script; ranges for corners are made up."""
        yield from Steps(Script(script.text)).all_of(*(FIRST + ("whole_twin", "collected")))
        patterns = hint_corners.Corners(script)
        pairs = patterns.pair_hints()
        yield from (hint for _, _, hint in pairs)
        targets = patterns.targets(pairs, [goal.left for goal in patterns.script.goals])
        ranges = {}
        for _, p in targets:
            for atom in patterns.wanted(p):
                ranges[atom] = Fraction(-1, 3), Fraction(5, 4)
        yield from patterns.corner_hints(targets, ranges).values()

    def test_identities(self):
        tried = 0
        for name, text in scripts():
            script = Script(text)
            hints = [h for h in self.proposals(script) if " -> " in h]
            again = Script(script.written(hints=hints))
            points = list(again.points(4, seed=5))
            for hint in again.hints:
                for point in points:
                    unknowns = {}
                    left = again.value(hint.left, point, unknowns)
                    right = again.value(hint.right, point, unknowns)
                    if left is not None and right is not None:
                        tried += 1
                        self.assertEqual(left, right, "%s: %s" % (name, hint.text))
        self.assertGreater(tried, 900)

    def test_twin_goes_into_bars(self):
        text = "y = fixed<-9,dn>(x); { x in [-1,1] -> |y| * 2 - |x| * 2 in ? }"
        for hint in Steps(Script(text)).all_of("whole_twin"):
            self.assertNotIn("- 2 * |x|", hint.split("->")[-1])

    def test_pairs_one_level_down(self):
        lines = [hint for _, _, hint in hint_corners.Corners(Script(CONTROLLER)).pair_hints()]
        self.assertIn("u - U -> (p - k * E) + (i1 - I1);", lines)
        self.assertIn("e - E -> -(y - Y);", lines)

    def test_a_bounded_difference_is_no_pair(self):
        text = """{ @FIX(a,-4) /\\ @FIX(b,-4) /\\ a in [0,9] /\\ b in [0,9] /\\ a - b in [0,1]
            -> a * a - b * b in ? }"""
        pairs = hint_corners.Corners(Script(text))
        self.assertEqual(pairs.swap, {})
        self.assertEqual(len(pairs.bounded), 1)

    def test_tied_variables_are_a_pair(self):
        lines = [hint for _, _, hint in hint_corners.Corners(Script(CLIPPED)).pair_hints()]
        self.assertIn("y - Y -> (v - V) + (y - v) - (Y - V);", lines)


class CornerForms(unittest.TestCase):
    """Corners give the exact range, and their texts are the polynomials."""

    def test_random(self):
        chance = random.Random(11)
        text = "{ x in [0,1] /\\ y in [-1,2] /\\ z in [0.5,3] -> x * y * z in ? }"
        patterns = hint_corners.Corners(Script(text))
        atoms = [("v", patterns.script.variables[name]) for name in "xyz"]
        ranges = {a: patterns.script.ranges()[patterns.nodes[a[1]][1]] for a in atoms}
        for _ in range(150):
            p = {}
            for mask in range(8):
                if chance.random() < 0.6:
                    m = tuple((a, 1) for k, a in enumerate(atoms) if mask >> k & 1)
                    p[m] = Fraction(chance.randrange(-9, 10), chance.choice((1, 2, 3)))
            p = {m: c for m, c in p.items() if c}
            if not p:
                continue
            low, high = hint_corners.corners(p, ranges)
            values = []
            for mask in range(8):
                left = p
                for k, atom in enumerate(atoms):
                    left = hint_corners.at_end(left, atom, ranges[atom][mask >> k & 1])
                values.append(left.get((), Fraction(0)))
            self.assertEqual((low, high), (min(values), max(values)))
            made = patterns.corner_texts(p, ranges)
            for line in made:
                again = Script("{ x in [0,1] -> %s in ? /\\ y * z in ? }" % line)
                for point in Script(text).points(3, seed=3):
                    want = sum(c * self.product(m, point, patterns) for m, c in p.items())
                    self.assertEqual(again.value(again.goals[0].left, point), want, line)

    @staticmethod
    def product(m, point, patterns):
        made = Fraction(1)
        for atom, power in m:
            made *= point[patterns.nodes[atom[1]][1]] ** power
        return made

    def test_a_convex_sum(self):
        patterns = hint_corners.Corners(Script(LINE))
        targets = patterns.targets([], [goal.left for goal in patterns.script.goals])
        ranges = {("v", patterns.script.variables[n]): (Fraction(0), Fraction(1)) for n in "xzk"}
        lines = list(patterns.corner_hints(targets, ranges).values())
        self.assertEqual(len(lines), 2)
        self.assertTrue(lines[0].endswith("+ 1 - ((1 - k) * (1 - x) + k * (1 - z));"), lines)


class Rewritings(unittest.TestCase):
    """A rewritten script says the same."""

    def test_products_by_powers(self):
        text = "y = x / 8 + 3 / 0.25 + x / 3; { x in [0,1] -> y / 4 in ? }"
        made = rewritings.powers_as_products(Script(text))
        self.assertIn("x * 1b-3 + 3 * 1b2 + x / 3", made)
        one, two = Script(text), Script(made)
        for point in one.points(5):
            self.assertEqual(
                one.value(one.goals[0].left, point), two.value(two.goals[0].left, point)
            )
        self.assertIsNone(rewritings.powers_as_products(Script("{ x in [0,1] -> x / 3 in ? }")))

    def test_sizes(self):
        one = Script("y = x - 1; { x in [-1,3] -> |y| + |x| * |y| in ? }")
        two = Script(rewritings.sizes_as_cases(one))
        self.assertEqual(two.cases(), 4)
        for point in one.points(9):
            more = dict(point, y_size=abs(point["x"] - 1), x_size=abs(point["x"]))
            self.assertTrue(two.meets(more))
            self.assertFalse(two.meets(dict(more, y_size=more["y_size"] + 1)))
            self.assertEqual(
                one.value(one.goals[0].left, point), two.value(two.goals[0].left, more)
            )
        self.assertIsNone(rewritings.sizes_as_cases(Script("{ x in [0,1] -> |x - |x|| in ? }")))
        for body in ("y q= |x - 1|", "y fixed<-3,dn> = 2 * |x - 1|"):
            text = "@q = int<dn>; %s; { x in [0,1] -> y in ? }" % body
            self.assertIsNone(rewritings.sizes_as_cases(Script(text)), body)
        plain = Script("@q = int<dn>; z = x - 1; y q= |z| * 2; { x in [0,1] -> y in ? }")
        self.assertIn("z_size * 2", rewritings.sizes_as_cases(plain))

    def test_names(self):
        one = Script("y = x * x; Y = y + 1; { x in [0,1] -> Y in ? }")
        two = Script(rewritings.names_as_variables(one))
        self.assertEqual(sorted(two.variables), ["Y", "x", "y"])
        self.assertTrue(two.meets({"x": Fraction(1, 2), "y": Fraction(1, 4), "Y": Fraction(5, 4)}))
        self.assertFalse(two.meets({"x": Fraction(1, 2), "y": Fraction(1, 4), "Y": Fraction(1)}))

    def test_coefficients(self):
        one = Script("y = 0.123456 * x; { x in [0,1] -> y in ? }")
        two = Script(rewritings.named_coefficients(one))
        self.assertEqual(two.ranges()["k0"], (Fraction(123456, 10**6),) * 2)


class Tool(unittest.TestCase):
    """Whole runs, whose outcome the program confirms."""

    def setUp(self):
        self.folder = tempfile.TemporaryDirectory()

    def tearDown(self):
        self.folder.cleanup()

    def made(self, name, text):
        path = os.path.join(self.folder.name, name)
        shared.write_text(path, text)
        return path

    def again(self, text, *options):
        """What the program answers for a text."""
        with shared.Program(PROGRAM) as program:
            return program.prove(text, ["--rounds", "64"] + list(options))

    def outcome(self, text):
        """What `hints` prints for a text, and what the program says of what it wrote."""
        path, out = self.made("script.fx", text), os.path.join(self.folder.name, "out.fx")
        status, lines, _ = hinted(path, "--write", out, "--seconds", "120")
        answer = self.again(shared.read_text(out))
        self.assertEqual(answer.assumed, [])
        own = [line for line in lines.split("\n") if not line.startswith("  |")]
        self.assertLessEqual(max(len(line) for line in own), 100)
        return status, lines, answer

    def test_a_line_stays_between_its_ends(self):
        self.assertEqual(self.again(LINE).status, 1)
        status, lines, answer = self.outcome(LINE)
        self.assertEqual((status, answer.status), (0, 0))
        self.assertIn("proved with:\n", lines)

    def test_more_rounds_alone(self):
        body = "x"
        for _ in range(14):
            body = "fixed<-20,dn>(%s * 0.75 + x * x)" % body
        text = "y = %s; { x in [0,1] -> y in ? /\\ y - y in [0,0] }" % body
        path = self.made("script.fx", text)
        with shared.Program(PROGRAM) as program:
            self.assertEqual(program.prove(text, ["--rounds", "20"]).status, 1)
        status, lines, _ = hinted(path, "--seconds", "60")
        self.assertEqual(status, 0)
        self.assertIn("proved by the option --rounds 64 alone:\n  y in [0, ", lines)

    def test_sizes_as_cases(self):
        status, lines, answer = self.outcome(SIZES)
        self.assertEqual((status, answer.status), (0, 0))
        self.assertIn("narrower with absolute values as cases:\n", lines)
        low, high = answer.intervals[0]
        self.assertLess(high - low, Fraction(1, 400))

    def test_nothing_is_written_if_nothing_was_found(self):
        text = "{ x in [0,1] /\\ y in [0,1] -> x * y in ? }"
        out = os.path.join(self.folder.name, "out.fx")
        status, lines, _ = hinted(self.made("script.fx", text), "--write", out)
        self.assertEqual(status, 0)
        self.assertIn("nothing that was tried narrows a ? goal\nnothing is written\n", lines)
        self.assertFalse(os.path.exists(out))

    def test_no_hint_is_kept_that_nothing_needs(self):
        text = CONTROLLER.replace("y in [-1,1] /\\ i", "y in [-1,1] /\\ x in [0,1] /\\ i")
        with shared.Program(PROGRAM) as program:
            words = type("Words", (), dict(assumed=False, jobs=1, depth=None, boxes=None))
            search = Search(Script(text), program, words, time.time() + 60)
            found = search.sets(against=1e9)
            hints, answer = search.least(*found)
            self.assertEqual(answer.status, 0)
            for hint in hints:
                fewer = search.prove([h for h in hints if h != hint])
                self.assertGreater(search.width(fewer), search.width(answer))

    def test_false_goals_are_left_out(self):
        try:
            import counterexamples  # noqa: F401
        except ImportError:
            self.skipTest("no counterexamples.py")
        text = "{ x in [0,1] -> x * x - x in [-0.2,0] /\\ x - x * x in [0,0.25] }"
        status, lines, _ = hinted(self.made("script.fx", text), "--seconds", "60")
        self.assertEqual(status, 1)
        self.assertIn("goal 1 is false: it has the value -", lines)
        self.assertNotIn("goal 1:", lines)
        self.assertIn("goal 2 is proved by itself with:", lines)

    def test_late(self):
        status, lines, _ = hinted(self.made("script.fx", CLIPPED), "--seconds", "0.02")
        self.assertEqual(status, 0 if lines.startswith("proved") else 1)
        self.assertNotIn("->", lines)

    def test_faults(self):
        path = self.made("script.fx", LINE)
        for words in (
            [path, "--write", path],
            [path, "--frobnicate"],
            [path, "--seconds", "0"],
            [path, "--jobs", "0"],
            ["no.such.file"],
            [self.made("bad.fx", "{ x in [0,1] -> x^2 in ? }")],
            [],
        ):
            status, lines, errors = hinted(*words)
            self.assertEqual((status, lines, errors.count("\n")), (2, "", 1), words)
        self.assertEqual(shared.read_text(path), LINE)


if __name__ == "__main__":
    unittest.main()
