"""Random routines in C: what tools/from_c says of them against what they do, and planted faults."""

import os
import shutil
import sys
import tempfile
import unittest
from unittest import mock

TOOLS = os.path.dirname(os.path.dirname(os.path.abspath(__file__)))
PROGRAM = os.environ.get("FIXPROVE") or os.path.join(os.path.dirname(TOOLS), "crates", "fx_main",
                                                    "out", "fx_main")
sys.path.insert(0, TOOLS)
sys.dont_write_bytecode = True
import c_judged  # noqa: E402
import c_paths  # noqa: E402
from c_meaning import Meaning  # noqa: E402
from c_random import Routine  # noqa: E402

QUICK, FULL = range(1, 25), range(25, 31)


class Judged(unittest.TestCase):
    def setUp(self):
        if not (os.access(PROGRAM, os.X_OK) and shutil.which("gcc")):
            self.skipTest("the built program or gcc isn't there")
        folder = tempfile.TemporaryDirectory(prefix="fixprove-")
        self.addCleanup(folder.cleanup)
        self.folder = folder.name

    def judged(self, seeds, quick=True):
        """The faults of some routines, how each ended, and how many break at a word."""
        tool, faults, ended, broken = c_judged.loaded(), [], [], 0
        for seed in seeds:
            case, how = c_judged.one(seed, self.folder, tool, PROGRAM, quick)
            faults += ["%d: %s" % (seed, text) for text in case.faults]
            ended.append(how)
            broken += any(events for _, events, _, _ in case.seen)
        return faults, ended, broken

    def test_paths(self):
        faults, ended, broken = self.judged(QUICK)
        self.assertEqual(faults, [])
        self.assertGreater(broken, 2)
        self.assertLess(broken, len(QUICK) - 5)
        self.assertGreater(sum(how in ("paths", "joined") for how in ended), 15)

    def test_no_body_hides_its_counter(self):
        # a struct in a loop's body once had the name that the loop counts by
        self.assertEqual(self.judged([101603])[0], [])

    def test_verdicts(self):
        faults, ended, _ = self.judged(FULL, False)
        self.assertEqual(faults, [])
        self.assertGreater(sum(how in ("proved", "unproved") for how in ended), 2)

    def test_planted(self):
        """A translator that forgets goals, or which way a condition goes, is found."""
        def forgets(self, *some):
            pass
        for name, said in (("goal", "no goal fails at"), ("assume", "paths take")):
            with self.subTest(fault=name), mock.patch.object(c_paths.Path, name, forgets):
                found = (said in text for seed in QUICK for text in self.judged([seed])[0])
                self.assertTrue(any(found))

    def test_a_wrong_meaning_is_found_by_gcc(self):
        def shift(self, op, a, k, kind):
            n = a[0] << k if op == "<<" else (a[0] + (1 << k - 1) if k else a[0]) >> k
            return n, None, None, a[3]
        with mock.patch.object(Meaning, "shift", shift):
            found = []
            for seed in range(4, 25, 4):
                case = c_judged.Case(seed, self.folder)
                case.run(20)
                case.by_gcc()
                found += case.faults
            self.assertTrue(any("by gcc" in text for text in found), found)

    def test_one_seed_makes_one_text(self):
        for seed in QUICK:
            one, two = Routine(seed), Routine(seed)
            self.assertEqual(one.ranged(one.ranges), two.ranged(two.ranges))


if __name__ == "__main__":
    unittest.main()
