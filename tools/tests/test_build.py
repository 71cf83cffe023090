"""What tools/build.py estimates, and the table of tools/minutes.py: nothing is proved here."""

import os
import subprocess
import sys
import tempfile
import unittest
from unittest import mock

TOOLS = os.path.dirname(os.path.dirname(os.path.abspath(__file__)))
sys.path.insert(0, TOOLS)
import build  # noqa: E402
import minutes  # noqa: E402

ON = {"low": [], "left": ["low"], "right": ["low"], "top": ["left", "right"], "alone": []}
COST = {"low": 10.0, "left": 20.0, "right": 5.0, "top": 1.0, "alone": 12.0}


class Span(unittest.TestCase):
    def spans(self, names, at_once):
        return build.span(frozenset(names), ON, COST, at_once)

    def test_one_at_a_time_takes_the_sum(self):
        self.assertEqual(self.spans(ON, 1), 48.0)

    def test_a_chain_takes_its_length(self):
        self.assertEqual(self.spans(ON, 9), 31.0)
        self.assertEqual(self.spans(["left", "top"], 9), 21.0)

    def test_the_longest_chain_begins_first(self):
        # "alone" waits for a lane: it and "right" stand beside "left"
        self.assertEqual(self.spans(ON, 2), 31.0)

    def test_nothing_takes_no_time(self):
        self.assertEqual(self.spans([], 2), 0.0)


class Estimate(unittest.TestCase):
    """A machine that is twice as slow as the one that the costs are of."""

    def setUp(self):
        listed = {**{name: 60 * cost for name, cost in COST.items()}, "unlisted": 0.0}
        on = {**ON, build.PROGRAM: ["top", "unlisted"], "unlisted": []}
        self.now = 1000.0
        for name, made in (("crates", lambda: on), ("costs", lambda: listed),
                           ("lines_of", lambda name: 1000)):
            self.enter(mock.patch.object(build, name, made))
        self.enter(mock.patch.object(build.time, "time", lambda: self.now))
        self.work = build.Work(4)

    def enter(self, patch):
        patch.start()
        self.addCleanup(patch.stop)

    def whole(self):
        program = (build.PER_LINE * 1000 + build.BUILD) / 60
        return 31 + program

    def test_it_begins_with_the_listed_seconds(self):
        self.assertEqual(self.work.cost["unlisted"], build.PER_LINE * 1000)
        self.assertEqual(self.work.minutes(), f"about {round(self.whole())} minutes")

    def test_a_slow_machine_is_told_by_what_is_done(self):
        for name, at in (("low", 10), ("right", 15), ("unlisted", 18), ("left", 30)):
            self.now = 1000.0 + 2 * 60 * at
            self.work.end(name)
        left = float(self.work.minutes().split()[1])
        wanted = 2 * (self.whole() - 30)
        self.assertLess(abs(left - wanted), wanted / 4)

    def test_the_end_is_near(self):
        for name in list(self.work.left):
            self.work.end(name)
        self.assertEqual(self.work.minutes(), "a minute or two")


class Costs(unittest.TestCase):
    def test_the_file_lists_crates_of_the_repository(self):
        listed = build.costs()
        self.assertGreater(len(listed), 70)
        self.assertEqual(set(listed) - set(build.crates()), set())

    def test_what_minutes_writes_is_read(self):
        rows = minutes.table([("a", "proofs", 90.0), ("a", "tests", 30.0), ("b", "edits", 6.0)])
        self.assertEqual(rows[-1][1], {"proofs": 1.5, "tests": 0.5, "edits": 0.1})
        with tempfile.TemporaryDirectory() as room:
            file = os.path.join(room, "costs")
            minutes.write_costs(file, rows[:-1])
            with mock.patch.object(build, "COSTS", file):
                self.assertEqual(build.costs(), {"a": 90.0})
            with mock.patch.object(build, "COSTS", file + ".gone"):
                self.assertEqual(build.costs(), {})
        self.assertIn("\na                        1.5     0.5     0.0     2.0\n",
                      minutes.printed(rows))

    def test_words(self):
        def run(*words):
            ran = subprocess.run([sys.executable, f"{TOOLS}/minutes.py", *words],
                                 capture_output=True, text=True)
            return ran.returncode, ran.stdout, ran.stderr.count("\n")

        self.assertEqual(run()[0], 2)
        self.assertEqual(run("--wrong", "true"), (2, "", 1))
        self.assertEqual(run("no-such-command-here"), (2, "", 1))
        self.assertEqual(run("--help")[0], 0)
        self.assertEqual(run("sh", "-c", "exit 3")[0], 3)


if __name__ == "__main__":
    unittest.main()
