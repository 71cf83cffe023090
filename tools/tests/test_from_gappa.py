"""What `tools/from_gappa` writes: by its text, by values at points, and by what is proved.

No Gappa is needed. What the program answers is asked of `FIXPROVE`, or of the built program.
"""

import glob
import os
import subprocess
import sys
import tempfile
import unittest
from fractions import Fraction

TOP = os.path.dirname(os.path.dirname(os.path.dirname(os.path.abspath(__file__))))
sys.path.insert(0, os.path.join(TOP, "tools"))
sys.dont_write_bytecode = True
from gappa_script import Gappa  # noqa: E402
from gappa_text import Unread, place, served_number  # noqa: E402
from gappa_write import translated  # noqa: E402
from script_text import Script  # noqa: E402

PROGRAM = os.environ.get("FIXPROVE") or os.path.join(TOP, "crates", "fx_main", "out", "fx_main")
TOOL = os.path.join(TOP, "tools", "from_gappa")


def run(*words):
    """A run of the tool: status, output, errors."""
    done = subprocess.run([sys.executable, TOOL] + list(words), stdout=subprocess.PIPE,
                          stderr=subprocess.PIPE, check=False, stdin=subprocess.DEVNULL)
    return done.returncode, done.stdout.decode("latin-1"), done.stderr.decode("latin-1")


def prove(text, *options):
    """Status and lines of the program."""
    with tempfile.NamedTemporaryFile("w", suffix=".fx") as file:
        file.write(text)
        file.flush()
        done = subprocess.run([PROGRAM, "prove", file.name] + list(options), check=False,
                              stdout=subprocess.PIPE, stderr=subprocess.STDOUT)
    return done.returncode, done.stdout.decode("latin-1").splitlines()


class Texts(unittest.TestCase):
    """Rows: a text of Gappa, and what is written."""

    ROWS = [
        ("{ x in [0,1] -> x in ? }", "{ x in [0,1] -> x in ? }"),
        # what Gappa reads otherwise
        ("{ x in [0,1] -> -x * x in ? }", "{ x in [0,1] -> -(x * x) in ? }"),
        ("{ x in [0,1] -> 2 - -x / 3 * x in ? }", "{ x in [0,1] -> 2 - -(x / 3 * x) in ? }"),
        ("{ x in [0,1] -> -2 * x in ? }", "{ x in [0,1] -> -2 * x in ? }"),
        ("{ x in [0,1] -> -x + x in ? }", "{ x in [0,1] -> -x + x in ? }"),
        ("{ x in [0,1] -> --x * x in ? }", "{ x in [0,1] -> --(x * x) in ? }"),
        # numbers
        ("{ x in [.5,1.] -> +x in ? }", "{ x in [0.5,1] -> x in ? }"),
        ("{ x in [0,1e20] -> x / 0x.8p1 in ? }", "{ x in [0,95367431640625b20] -> x * 1b0 in ? }"),
        ("{ x in [0,0X1] -> x in ? }", None),
        # quotients by powers of two
        ("{ x in [0,1] -> x / 8 + x / 3 in ? }", "{ x in [0,1] -> x * 1b-3 + x / 3 in ? }"),
        ("y = x / 1b3; { x in [0,1] -> y / 0.25 in ? }",
         "y = x * 1b-3; { x in [0,1] -> y * 1b2 in ? }"),
        # formulas
        ("{ (x in [0,1]) -> (x in ? /\\ x <= 2) }", "{ x in [0,1]\n  -> x in ? /\\ x <= 2 }"),
        ("{ x in [0,1] /\\ not (x >= 0.5 /\\ x <= 0.6) -> x in ? }",
         "{ not x >= 0.5 \\/ not x <= 0.6\n  -> x in [0,1]\n  -> x in ? }"),
        ("{ x in [0,9] /\\ not x in [1,2] -> x in ? }",
         "{ not x >= 1 \\/ not x <= 2\n  -> x in [0,9]\n  -> x in ? }"),
        ("{ x in [0,1] -> not x <= 1 \\/ x in ? }", "{ x in [0,1]\n  -> x <= 1\n  -> x in ? }"),
        ("{ x in [0,1] /\\ (x <= 0.5 -> y in [2,3]) -> x in ? }",
         "{ not x <= 0.5 \\/ y in [2,3]\n  -> x in [0,1]\n  -> x in ? }"),
        ("{ x in [0,1] -> not x >= 2 }", "{ x in [0,1]\n  -> x >= 2\n  -> 0 in [1,1] }"),
        ("{ |x -/ y| <= 0.1 /\\ y in [1,2] -> x in ? }",
         "{ x -/ y in [-0.1,0.1] /\\ y in [1,2]\n  -> x in ? }"),
        ("{ x = y + 1 /\\ y in [0,1] -> x in ? }",
         "{ x - (y + 1) in [0,0] /\\ y in [0,1]\n  -> x in ? }\n"
         "x -> (y + 1) + (x - (y + 1));\n"),
        ("@q = int<dn>; { x in [0,1] -> @FIX(q(x) * 2,1) /\\ x in ? }",
         "@q = int<dn>; { x in [0,1]\n  -> fixed<1,dn>(q(x) * 2) - (q(x) * 2) in [0,0]"
         " /\\ x in ? }"),
        ("{ not not not x <= 1 /\\ x <= 2 -> x in ? }",
         "{ not x <= 1 /\\ x <= 2\n  -> x in ? }"),
        # splits
        ("y = x; { x in [0,1] -> y in ? } $ y; y $ (y);",
         "y = x; { x in [0,1] -> y in ? } $ x; y $ x;"),
        ("{ x in [0,1] -> x in ? } $ x in 3, x;", "{ x in [0,1] -> x in ? } $ x in 3; $ x;"),
        ("{ x in [0,1] -> x in ? } x $ x in 100;",
         "{ x in [0,1] -> x in ? } $ x in 50; $ x in 2;"),
        ("@q = int<ne>; { x in [0,1] -> x in ? } x <= 1 $ q(x);",
         "@q = int<ne>; { x in [0,1] -> x in ? } x $ x;"),
        ("{ |x| <= 2 -> x in ? } $ x;", "{ x in [-2,2]\n  -> |x| <= 2 -> x in ? } $ x;"),
        ("{ x >= 0 /\\ x <= 1 -> x in ? } $ x;",
         "{ x in [0,1]\n  -> x >= 0 /\\ x <= 1 -> x in ? } $ x;"),
        ("{ x in [0,1] -> x * (1 - x) <= 0.3 }",
         "{ x in [0,1] -> x * (1 - x) <= 0.3 }\nx * (1 - x) $ x;\n"),
        ("{ x in [0,1] -> x in ? } x -> x { x <> 3 };",
         "{ x in [0,1] -> x in ? } x -> x { (x) - (3) <> 0 };"),
    ]

    def test_rows(self):
        """Each text is written as its row says, and is spelled by the grammar."""
        for text, wanted in self.ROWS:
            with self.subTest(text):
                if wanted is None:
                    self.assertRaises(Unread, translated, text)
                    continue
                made = translated(text)
                self.assertEqual(made.unserved, [])
                self.assertEqual(made.text, wanted)
                Script(made.text)

    def test_numbers(self):
        """Numbers past the limits are spelled otherwise, or not at all."""
        for text, wanted in [("1e30", "931322574615478515625b30"), ("1e-31", None),
                             ("0." + "0" * 40 + "1", None), ("1b600", None), ("0", "0"),
                             ("0x1.8p-2", "0x1.8p-2"), ("00.50", "00.50"), ("1e8", "1e8")]:
            self.assertEqual(served_number(text), wanted, text)

    def test_proved(self):
        """What the program is given is read by it, and proved."""
        if not os.access(PROGRAM, os.X_OK):
            self.skipTest("%s isn't built" % PROGRAM)
        for text, wanted in self.ROWS:
            if wanted is not None and "not x >= 2 }" not in text:
                status, lines = prove(wanted, "--rounds", "64")
                self.assertIn(status, (0, 1), (wanted, lines))
        status, lines = prove(translated("{ x in [0,1] -> not x >= 2 }").text)
        self.assertEqual((status, lines), (0, ["0 in empty"]))
        text = "{ x in [-1,1] -> x * x - x in [-0.2501,2] }"
        self.assertEqual(prove(text)[0], 1)
        self.assertEqual(prove(translated(text).text)[0], 0)


class Unserved(unittest.TestCase):
    """Constructs that aren't served, with their places."""

    ROWS = [
        ("@f = float<ieee_32,ne>;\n{ x in [0,1] -> f(x) in ? }", [(1, 6, "float<ieee_32,ne>")]),
        ("{ x in [0,1] ->\n  sqrt(x) in ? /\\ sqrt(x + 1) in ? }",
         [(2, 3, "sqrt"), (2, 19, "sqrt")]),
        ("{ x in [0,1] -> add_rel<20>(x, x) in ? }", [(1, 17, "add_rel<20>")]),
        ("{ @FLT(x,24) -> x in ? }", [(1, 3, "@FLT")]),
        ("{ x <> 0 -> x / x in ? }", [(1, 3, "<>")]),
        ("{ x in [0,1] -> x in ? /\\ (x <= 2 \\/ x >= 3) }", [(1, 28, "no single")]),
        ("{ x in [0,1] /\\ not @FIX(x,0) -> x in ? }", [(1, 21, "not before")]),
        ("{ x in [0,1e-40] -> x in ? }", [(1, 11, "1e-40")]),
        ("{ x >= 0 -> x in ? }\n$ x;", [(2, 3, "no range")]),
        ("{ x in [0,1] -> x * x in ? } $ x * (x + 1) in (0.5);", [(1, 32, "points")]),
        ("{ x in [0,1] -> x in ? } " + "$ x;" * 5, [(1, 42, "more than 4 splits")]),
        ("{ @FIX(x,600) -> x in ? }", [(1, 10, "2^600")]),
        ("# caf\xe9\n{ x in ? }", [(1, 6, "UTF-8")]),
    ]

    def test_rows(self):
        """Each is told at its line and column, and nothing is written."""
        for text, wanted in self.ROWS:
            with self.subTest(text):
                made = translated(text)
                self.assertIsNone(made.text)
                self.assertEqual([place(text, word.at) for word in made.unserved],
                                 [row[:2] for row in wanted])
                for word, row in zip(made.unserved, wanted):
                    self.assertIn(row[2], word.what)
                    self.assertTrue(word.cure)

    def test_unread(self):
        """What Gappa refuses is refused at a place in the text."""
        for text, at in [("{ x in [0,1] -> x in ? ", 23), ("{ x in [2,1] -> x in ? }", 10),
                         ("x = 1; x = 2; { x in ? }", 7), ("{ x ! }", 4), ("", 0),
                         ("{ x in ? } x ->;", 15), ("y = z(x); { y in ? }", 4),
                         ("{ " + "(" * 300 + "x" + ")" * 300 + " in ? }", None)]:
            with self.subTest(text):
                with self.assertRaises(Unread) as caught:
                    Gappa(text)
                if at is not None:
                    self.assertEqual(caught.exception.at, at)


class Values(unittest.TestCase):
    """All scripts of the repository, before and after."""

    def test_same_values(self):
        """Goals have the same values at points, in the texts before and after."""
        for name in sorted(glob.glob(os.path.join(TOP, "scripts", "*.fx")))[::8]:
            with open(name, encoding="latin-1") as file:
                text = file.read()
            made = translated(text)
            self.assertEqual(made.unserved, [], name)
            before, after = Script(text), Script(made.text)
            self.assertEqual(len(before.goals), len(after.goals), name)
            for point in before.points(2):
                for one, other in zip(before.goals, after.goals):
                    self.assertEqual(before.value(one.left, point),
                                     after.value(other.left, point), name)

    def test_rounded_minus(self):
        """Under an operator a minus before a product stands outside, as Gappa has it."""
        made = translated("@q = int<dn>; y q= -x * x; { x in [0,2] -> y in ? }").text
        script = Script(made)
        self.assertEqual(script.value(script.defined["y"], {"x": Fraction(3, 2)}), -2)
        self.assertIn("y q= -(x * x);", made)


class Tool(unittest.TestCase):
    """The command."""

    def test_words(self):
        """Help, unknown words and missing files."""
        status, out, _ = run("--help")
        self.assertEqual(status, 0)
        self.assertIn("--write", out)
        for words in [(), ("--what",), ("/nowhere/x.g",)]:
            status, out, errors = run(*words)
            self.assertEqual((status, out, errors.count("\n")), (2, "", 1), words)

    def test_files(self):
        """--write, and what isn't written."""
        with tempfile.TemporaryDirectory() as folder:
            name, made = os.path.join(folder, "a.g"), os.path.join(folder, "a.fx")
            with open(name, "w") as file:
                file.write("{ x in [0,1] -> -x * x in ? }\n")
            self.assertEqual(run(name, "--write", made)[:2], (0, ""))
            with open(made) as file:
                self.assertEqual(file.read(), "{ x in [0,1] -> -(x * x) in ? }\n")
            self.assertEqual(run(name, "--write", name)[0], 2)
            with open(name, "w") as file:
                file.write("{ x in [0,1] -> sqrt(x) in ? }\n")
            os.unlink(made)
            status, out, errors = run(name, "--write", made)
            self.assertEqual((status, out), (1, ""))
            self.assertTrue(errors.startswith(name + ":1:17: sqrt isn't served: "), errors)
            self.assertFalse(os.path.exists(made))


if __name__ == "__main__":
    unittest.main()
