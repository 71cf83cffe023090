"""Tests of `tools/picture` and of its modules `picture_*.py`."""

import json
import os
import subprocess
import sys
import tempfile
import unittest
from fractions import Fraction

TOOLS = os.path.dirname(os.path.dirname(os.path.abspath(__file__)))
sys.dont_write_bytecode = True
sys.path.insert(0, TOOLS)
import assistants as shared  # noqa: E402
import picture_plain  # noqa: E402
import picture_reader  # noqa: E402
import picture_sheets  # noqa: E402

PROGRAM = os.environ.get("FIXPROVE") or os.path.join(os.path.dirname(TOOLS), "crates", "fx_main",
                                                     "out", "fx_main")
PLOTS = next((python for python in (sys.executable, "/usr/bin/python3") if os.path.exists(python)
              and subprocess.call([python, "-c", "import matplotlib"],
                                  stderr=subprocess.DEVNULL) == 0), None)
BUMP = "y = x * (1 - x);\n{ x in [0,1] -> y in [-0.01,0.2501] /\\ 1 + y in ? }\ny $ x;\n"
CASES = ("{ x in [0,1] -> x <= 0.5 /\\ y in [2,3] \\/ x >= 0.5 /\\ x in [2,3] \\/ x >= 0.5 "
         "/\\ y in [1,1]\n  -> x + y in [0,4] }\n")
DRIVER = """import json, sys
from importlib.machinery import SourceFileLoader
from importlib.util import module_from_spec, spec_from_loader
sys.path.insert(0, sys.argv[1].rpartition("/")[0])
loader = SourceFileLoader("picture", sys.argv[1])
tool = module_from_spec(spec_from_loader("picture", loader))
loader.exec_module(tool)
for words in json.loads(sys.argv[2]):
    assert tool.main(words) == 0
"""
FLAT = "{ x in [0,1] /\\ z in [1,2] -> x * z in [0,2] /\\ x - x in ? }\n$ x in 4; $ z in 2;\n"


class Pictures(unittest.TestCase):

    def setUp(self):
        folder = tempfile.TemporaryDirectory()
        self.addCleanup(folder.cleanup)
        self.folder = folder.name

    def path(self, name):
        return os.path.join(self.folder, name)

    def proved(self, text, *options):
        """The names of a script and of its certificate."""
        shared.write_text(self.path("s.fx"), text)
        done = subprocess.run([PROGRAM, "prove", self.path("s.fx"), "--cert", self.path("s.cert")]
                              + list(options), stdout=subprocess.PIPE)
        self.assertEqual(done.returncode, 0, done.stdout)
        return self.path("s.fx"), self.path("s.cert")

    def shown(self, text):
        """The script, and what its certificate shows."""
        names = self.proved(text)
        with shared.Program(PROGRAM) as program:
            answer = program.run(["check"] + list(names))
        script = shared.Script(text)
        return script, picture_reader.read(script, shared.read_bytes(names[1]), answer)

    def run_tool(self, *words, python=sys.executable):
        done = subprocess.run([python, "-B", os.path.join(TOOLS, "picture")] + list(words)
                              + ["--program", PROGRAM], stdout=subprocess.PIPE,
                              stderr=subprocess.PIPE)
        return done.returncode, done.stdout.decode(), done.stderr.decode()

    def test_labels_hold_what_is_shown(self):
        for number in (Fraction(32767, 32768), Fraction(2049930001, 10 ** 9), Fraction(-1, 3),
                       Fraction(0x7fffffff, 1 << 30), Fraction(1, 10 ** 9 + 1), Fraction(0)):
            self.assertGreaterEqual(Fraction(picture_sheets.high(number)), number)
            self.assertLessEqual(Fraction(picture_sheets.low(number)), number)
        self.assertEqual(picture_sheets.exact(Fraction(1, 4), True), "0.25")
        bound = Fraction(0x7fffffff, 1 << 30)
        self.assertLess(Fraction(picture_sheets.exact(bound, True).rstrip(".")), bound)

    def test_upper_labels_of_a_panel(self):
        # 2.04993 was shown as 2.049, which isn't a bound of it
        script, shown = self.shown("{ x in [0,2.04993] -> x in ? }")
        found = picture_plain.pictured(script, shown, [0])
        self.assertIn(">2.05<", found)
        self.assertNotIn(">2.049<", found)

    def test_boxes_tile_the_range(self):
        _, shown = self.shown(BUMP)
        spans = sorted(box.ranges[0] for box in shown.boxes)
        self.assertEqual((spans[0][0], spans[-1][1]), (0, 1))
        self.assertGreater(len(spans), 4)
        for (_, high), (low, _) in zip(spans, spans[1:]):
            self.assertEqual(high, low)

    def test_worst(self):
        script, shown = self.shown(BUMP)
        box = picture_reader.worst(script.goals[0], 0, shown.boxes)
        rooms = [min(b.goals[0][0] - script.goals[0].lower, script.goals[0].upper - b.goals[0][1])
                 for b in shown.boxes]
        low, high = box.goals[0]
        self.assertEqual(min(low - script.goals[0].lower, script.goals[0].upper - high), min(rooms))
        box = picture_reader.worst(script.goals[1], 1, shown.boxes)
        self.assertEqual(max(map(abs, box.goals[1])),
                         max(abs(end) for b in shown.boxes for end in b.goals[1]))

    def test_boxes_without_an_assignment_lie_under(self):
        script, shown = self.shown(CASES)
        self.assertIn(None, [box.goals for box in shown.boxes])
        drawn = picture_plain.pictured(script, shown, [0])
        self.assertLess(drawn.rindex('fill="#ccc"'), drawn.index('fill-opacity="0.55"'))

    def test_both_versions(self):
        pages = os.path.join(os.path.dirname(TOOLS), "docs", "tutorial")
        script, old = os.path.join(pages, "words.fx"), os.path.join(pages, "words_version_1.cert")
        new = self.path("new.cert")
        with shared.Program(PROGRAM) as program:
            self.assertEqual(program.run(["upgrade", old, new]).status, 0)
            answer = program.run(["check", script, old])
        self.assertEqual(answer.status, 0)
        one, two = (picture_reader.read(shared.Script(shared.read_text(script)),
                                        shared.read_bytes(name), answer) for name in (old, new))
        self.assertEqual((one.version, two.version), (1, 2))
        self.assertEqual(one[1:], two[1:])
        self.assertTrue(any(box.goals for box in one.boxes))

    def test_bytes_cut_short(self):
        script, cert = self.proved(BUMP)
        data = shared.read_bytes(cert)
        with self.assertRaises(shared.Fault):
            picture_reader.read(shared.Script(BUMP), data[:40],
                                shared.Answer(0, ["y in [0, 1]", "1 + y in [0, 1]"]))
        answer = shared.Answer(0, ["y in [0, 3b-8]", "1 + y in [1, 3]"])
        with self.assertRaises(shared.Fault):
            picture_reader.read(shared.Script(BUMP), data, answer)

    def test_faults(self):
        script, cert = self.proved(BUMP)
        other = self.path("other.fx")
        shared.write_text(other, "{ x in [0,1] -> x in ? }")
        out = self.path("out.svg")
        for words in ([script, cert], [script, cert, "--svg", script],
                      [script, cert, "--svg", cert], [other, cert, "--svg", out],
                      [script, "no", "--svg", out],
                      [script, cert, "--svg", out, "--goal", "3"], [script, cert, "--what"],
                      [script, cert, "--svg", self.path("no/where.svg")],
                      [script, cert, "--report", self.path("out.gif")]):
            status, said, errors = self.run_tool(*words)
            self.assertEqual((status, said, errors.count("\n")), (2, "", 1), (words, errors))
            self.assertFalse(os.path.exists(out))

    def test_help(self):
        status, said, _ = self.run_tool("--help")
        self.assertEqual(status, 0)
        self.assertIn("--report", said)

    def test_without_matplotlib(self):
        shared.write_text(self.path("matplotlib.py"), "raise ImportError\n")
        script, cert = self.proved(BUMP)
        done = subprocess.run([sys.executable, "-B", os.path.join(TOOLS, "picture"), script, cert,
                               "--report", self.path("out.png"), "--program", PROGRAM],
                              stdout=subprocess.PIPE, stderr=subprocess.PIPE,
                              env=dict(os.environ, PYTHONPATH=self.folder))
        self.assertEqual((done.returncode, done.stdout, done.stderr.count(b"\n")), (2, b"", 1))
        self.assertIn(b"apt-get install python3-matplotlib", done.stderr)

    @unittest.skipUnless(PLOTS, "there is no matplotlib")
    def test_reports(self):
        texts = {BUMP: ("found: [0, 0.25", "asked 0.2501", "asked -0.01", "cuts", "worst box"),
                 CASES: ("case 1: x &lt;= 0.5", "no assignment (1 of 3 boxes)", "asked 4"),
                 FLAT: ("worst: [1.125, 2] at", "asked 2", "absolute value")}
        runs = []
        for k, text in enumerate(texts):
            names = [self.path("%d.%s" % (k, kind)) for kind in ("fx", "cert")]
            for name, made in zip(names, self.proved(text)):
                os.replace(made, name)
            runs.append(names + ["--report", self.path("%d.svg" % k), "--program", PROGRAM])
        runs.append(names + ["--report", self.path("3.svg"), "--program", PROGRAM])
        # one process for all, as matplotlib takes a second to start
        done = subprocess.run([PLOTS, "-B", "-c", DRIVER, os.path.join(TOOLS, "picture"),
                               json.dumps(runs)], stdout=subprocess.PIPE, stderr=subprocess.PIPE)
        self.assertEqual(done.returncode, 0, done.stderr)
        for k, wanted in enumerate(texts.values()):
            drawn = shared.read_text(self.path("%d.svg" % k))
            for words in wanted + ("%d.fx" % k, "sha256", "accepted by check"):
                self.assertTrue(words in drawn, (k, words))
        same = [shared.read_text(self.path(name)) for name in ("2.svg", "3.svg")]
        self.assertTrue(same[0] == same[1], "two runs differ")


if __name__ == "__main__":
    unittest.main()
