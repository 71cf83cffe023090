"""tools/costs.py: what it reads of callgrind, its inputs, its table, and comparisons of counts."""

import io
import json
import os
import re
import subprocess
import sys
import tempfile
import unittest
from contextlib import redirect_stdout

TOP = os.path.dirname(os.path.dirname(os.path.dirname(os.path.abspath(__file__))))
sys.path.insert(0, os.path.join(TOP, "tools"))
sys.dont_write_bytecode = True
import assistants as shared  # noqa: E402
import cost_rules  # noqa: E402
import cost_scripts  # noqa: E402
import costs  # noqa: E402
from reference import certificate, checker, parser, rules  # noqa: E402

# What callgrind writes, cut short: `b` is called by two functions, and once more by an instance
# whose name has a mark behind it; `c` calls itself.
CALLGRIND = """# callgrind format
version: 1
cmd:  ./program prove a
positions: line
events: Ir
summary: 1000

fl=???
fn=a
0 10
cfn=m::b::<#a4676d>
calls=3 0
0 300
cfn=m::c
calls=1 0
0 90

fn=m::c
0 5
cob=other
cfi=file.c
cfn=m::b::<#77>
calls=2 0
0 20
cfn=m::c'2
calls=4 0
0 44

totals: 1000
"""


def run(*words, **around):
    """Status, output and errors of the tool."""
    done = subprocess.run(
        [sys.executable, "-B", os.path.join(TOP, "tools", "costs.py")] + list(words),
        env=dict(os.environ, **around), stdout=subprocess.PIPE, stderr=subprocess.PIPE)
    return done.returncode, done.stdout.decode(), done.stderr.decode()


class Reading(unittest.TestCase):
    def test_calls_and_instructions(self):
        found = costs.counts_in(CALLGRIND.splitlines(), ("m::b", "m::c", "m::d"))
        self.assertEqual(found.total, 1000)
        self.assertEqual(found.inside, {"m::b": [5, 320], "m::c": [5, 134]})

    def test_nothing_is_counted(self):
        with self.assertRaises(shared.Fault):
            costs.counts_in(["version: 1", "fn=a", "0 10"], ())

    def test_rounding(self):
        self.assertEqual([costs.million(n) for n in (0, 7, 1000000, 116356525)],
                         ["0.000000", "0.000007", "1.000000", "116.356525"])
        self.assertEqual([costs.ratio(*pair) for pair in ((1, 3), (2, 2), (2001, 2000), (1, 0))],
                         ["0.334", "1.000", "1.001", "-"])


class Inputs(unittest.TestCase):
    def test_each_rule_has_a_row(self):
        """The rows are the rules of the reference, and no two parts have a row of one name."""
        self.assertEqual([rule.number for rule in cost_rules.RULES], rules.NUMBERS)
        names = [(row.part, row.what) for part in cost_scripts.PARTS.values() for row in part()]
        self.assertEqual(len(names), len(set(names)))
        self.assertLessEqual(max(len("%s: %s" % name) for name in names), 56)

    def test_certificates_have_their_steps(self):
        """The reference accepts each rule's certificate, whose steps are by the rule."""
        for rule in cost_rules.RULES:
            text, cert = cost_rules.certificate(rule, 40)
            checker.check(parser.parse(text), certificate.Reader(cert))
            steps = [item for item in certificate.read(cert) if item[0] == "Step"]
            self.assertEqual({step[1] for step in steps[-40:]}, {rule.number}, rule)
            self.assertTrue(all(len(step[5]) == len(rule.premises) for step in steps[-40:]), rule)

    def test_premises_differ(self):
        """A rule of intervals is asked of 16 lists of premises, whose ends have 60 digits."""
        _, cert = cost_rules.certificate(cost_rules.RULES[2], 32)
        steps = [item for item in certificate.read(cert) if item[0] == "Step"]
        self.assertEqual(len({step[5] for step in steps[-32:]}), 16)
        for bits, places in ((60, 0), (8, 0), (60, 440)):
            text = cost_rules.certificate(cost_rules.RULES[2], 1, bits, places)[0].decode()
            numbers = [(int(m), int(e)) for m, e in re.findall(r"(\d+)b-(\d+)", text)]
            self.assertEqual({m.bit_length() for m, _ in numbers}, {bits})
            self.assertEqual(max(e for _, e in numbers) > 440, places == 440)

    def test_texts_have_their_lengths(self):
        for name, make, _ in cost_scripts.TEXTS:
            for length in cost_scripts.LENGTHS:
                self.assertTrue(0.9 * length < len(make(length)) <= length + 4096, name)

    def test_runs_end_as_they_should(self):
        """The program ends each run that isn't `large` with its status."""
        with shared.Program(shared.built()) as program:
            for part in cost_scripts.USUAL:
                for row in cost_scripts.PARTS[part]():
                    with tempfile.TemporaryDirectory() as folder:
                        costs.place(folder, program.path, row.files())
                        for words, status in ((row.before, 0), (row.words, row.status)):
                            if words:
                                done = subprocess.run(["./program"] + words, cwd=folder,
                                                      stdout=subprocess.PIPE)
                                self.assertEqual(done.returncode, status, row[:2])


class Fake:
    """Counts without running anything: a run's instructions are these times the part's letters."""

    times = 1000

    def __init__(self, program):
        pass

    def count(self, wanted, files):
        total = self.times * len(wanted.part)
        inside = {name: [3, total // 2] for name in wanted.inside[:1]}
        return costs.Count(total, inside), wanted.status


class Comparing(unittest.TestCase):
    def setUp(self):
        self.counter, costs.Counter = costs.Counter, Fake
        self.folder = tempfile.TemporaryDirectory()
        self.file = os.path.join(self.folder.name, "counts")

    def tearDown(self):
        costs.Counter, Fake.times = self.counter, 1000
        self.folder.cleanup()

    def said(self, *words):
        """Status and lines of `main` with these counts."""
        out = io.StringIO()
        with redirect_stdout(out):
            status = costs.main(list(words))
        return status, out.getvalue().splitlines()

    def test_table(self):
        status, lines = self.said("universes")
        self.assertEqual(status, 0)
        self.assertRegex(lines[1], r"^universes: degree 6: 106 expressions +0\.009000$")
        self.assertRegex(lines[2], r"^  in universe::world::build +0\.004500 +3 calls +1500 each$")
        self.assertRegex(lines[3], r"^  in theorem_list::list::conclude +-$")
        self.assertTrue(all(len(line) <= 100 for line in lines))

    def test_against(self):
        self.said("universes", "boxes", "--save", self.file)
        Fake.times = 500
        status, lines = self.said("boxes", "--against", self.file)
        self.assertEqual(status, 0)
        self.assertRegex(lines[0], "before +now +ratio$")
        self.assertRegex(lines[1], r"^boxes: degree 12: the root, by rounds +0\.005000 +0\.002500 "
                                   r"+0\.500$")
        # what the other program wasn't asked for stands alone
        self.assertRegex(self.said("hints", "--against", self.file)[1][1], " 0.002500$")

    def test_other_inputs_are_told(self):
        self.said("universes", "--save", self.file)
        with open(self.file) as file:
            kept = json.load(file)
        kept["runs"][0]["input"] = "0" * 16
        with open(self.file, "w") as file:
            json.dump(kept, file)
        _, lines = self.said("universes", "--against", self.file)
        self.assertIn("universes: degree 6: 106 expressions: the other program was given something "
                      "else", lines)

    def test_another_status(self):
        Fake.count, kept = (lambda self, wanted, files: (costs.Count(5, {}), 77)), Fake.count
        try:
            status, lines = self.said("hints")
        finally:
            Fake.count = kept
        self.assertEqual(status, 1)
        self.assertIn("hints: 256 terms and their square: status 77 in place of 0", lines)

    def test_files_that_are_no_counts(self):
        for text in ("", "{}", "[1]", '{"runs": [{"part": 1}]}'):
            with open(self.file, "w") as file:
                file.write(text)
            with self.assertRaises(shared.Fault):
                self.said("hints", "--against", self.file)


class Words(unittest.TestCase):
    def test_wrong_words(self):
        for words, said in [
            (["nothing"], "costs.py: nothing is no part (--list prints them)\n"),
            (["--against", "no such file"], "costs.py: no such file: No such file or directory\n"),
        ]:
            self.assertEqual(run(*words), (2, "", said))
        status, out, err = run("hints", "--program", "no such program")
        self.assertEqual((status, out, err.count("\n")), (2, "", 1))
        self.assertIn("no such program", err)

    def test_list(self):
        status, out, err = run("--list")
        self.assertEqual((status, err), (0, ""))
        self.assertEqual([line.split()[0] for line in out.splitlines()],
                         list(cost_scripts.PARTS))

    def test_no_valgrind(self):
        """What is missing is named, with how it comes."""
        with tempfile.TemporaryDirectory() as folder:
            status, out, err = run("hints", PATH=folder)
        self.assertEqual((status, out), (2, ""))
        self.assertRegex(err, r"^costs\.py: valgrind isn't there.*apt-get install valgrind.*\n$")


@unittest.skipUnless(costs.shutil.which("valgrind"), "valgrind isn't there")
class Counting(unittest.TestCase):
    def test_counts_are_the_same_again(self):
        """A short script twice: the same counts, of which the reading of the text is a part."""
        wanted = next(row for row in cost_scripts.commands() if row.what.endswith("interpolation"))
        wanted = wanted._replace(inside=(cost_scripts.PARSE, cost_scripts.CONCLUDE))
        counter = costs.Counter(shared.built())
        first, again = [counter.count(wanted, wanted.files()) for _ in range(2)]
        self.assertEqual(first, again)
        count, status = first
        self.assertEqual(status, 0)
        for name, (calls, cost) in count.inside.items():
            self.assertTrue(0 < calls and 0 < cost < count.total, name)


if __name__ == "__main__":
    unittest.main()
