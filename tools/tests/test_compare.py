"""The comparisons of `tools/compare`: they agree, they find a wrong program, and their words.

`FIXPROVE` names the program. What each comparison finds in many cases is no part of this:
tools/compare/all.py runs them.
"""
import os
import subprocess
import sys
import tempfile
import unittest

TOP = os.path.dirname(os.path.dirname(os.path.dirname(os.path.abspath(__file__))))
COMPARE = os.path.join(TOP, "tools", "compare")
PROGRAM = os.path.abspath(os.environ.get("FIXPROVE") or os.path.join(
    TOP, "crates", "fx_main", "out", "fx_main"))
# A program that prints other upper ends, and takes a damaged certificate for a whole one.
WRONG = """#!/bin/sh
"%s" "$@" > out
status=$?
sed 's/, \\([0-9]\\)/, 1\\1/; s/BadStep/BadPremise/' out
rm out
exit $status
"""


def ran(words, program=PROGRAM):
    """Status, output and errors of a comparison."""
    done = subprocess.run([sys.executable, os.path.join(COMPARE, words[0])] + words[1:],
                          env=dict(os.environ, FIXPROVE=program), stdout=subprocess.PIPE,
                          stderr=subprocess.PIPE)
    return done.returncode, done.stdout.decode(), done.stderr.decode()


class Comparisons(unittest.TestCase):
    def test_they_agree(self):
        for words in (["answers.py", "8", "5", "1"], ["rule_runs.py", "4", "5", "1"],
                      ["recheck_runs.py", "texts", "12", "5", "1"], ["at_runs.py", "4", "5", "1"]):
            status, out, err = ran(words)
            self.assertEqual((status, err), (0, ""), out)
            self.assertRegex(out, r"[1-9]\d* compared, 0 differ\n$")

    def test_they_find_a_wrong_program(self):
        with tempfile.TemporaryDirectory() as folder:
            wrong = os.path.join(folder, "wrong")
            with open(wrong, "w") as file:
                file.write(WRONG % PROGRAM)
            os.chmod(wrong, 0o755)
            for words in (["answers.py", "20", "5", "1"], ["rule_runs.py", "4", "5", "1"],
                          ["recheck_runs.py", "certificates", "4", "5", "1"]):
                status, out, _ = ran(words, wrong)
                self.assertEqual(status, 1, out)
                self.assertRegex(out, r"compared, [1-9]\d* differ\n$")
                self.assertIn("seed 50000", out)

    def test_words(self):
        for name in sorted(os.listdir(COMPARE)):
            if not os.access(os.path.join(COMPARE, name), os.X_OK):
                continue
            status, out, err = ran([name, "--help"])
            self.assertEqual((status, err), (0, ""), name)
            self.assertIn("COUNT SEED [JOBS] [--program PROGRAM]", out)
            status, out, err = ran([name, "20"])
            self.assertEqual((status, out, len(err.splitlines())), (2, "", 1), name)
        for words in (["answers.py", "1", "1", "--program"], ["damages.py", "1", "1"],
                      ["answers.py", "1", "1", "--programs", PROGRAM], ["answers.py", "x", "1"],
                      ["answers.py", "1", "1", "--program", "/no/such"]):
            status, out, err = ran(words)
            self.assertEqual((status, out, len(err.splitlines())), (2, "", 1), words)


if __name__ == "__main__":
    unittest.main()
