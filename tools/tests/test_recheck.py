"""Holds `tools/recheck` against `fixprove check`, on the certificates of all examples.

Each certificate is tried as it is, in both versions, for another script, and damaged in 20 ways by
a fixed seed: ten times in its bytes, and ten times in what its items say. `FIXPROVE` names the
program.
"""
import os
import random
import subprocess
import sys
import tempfile
import unittest

TOP = os.path.dirname(os.path.dirname(os.path.dirname(os.path.abspath(__file__))))
TOOLS = os.path.join(TOP, "tools")
PROGRAM = os.path.abspath(os.environ.get(
    "FIXPROVE", os.path.join(TOP, "crates", "fx_main", "out", "fx_main")))
sys.path[:0] = [TOP, TOOLS, os.path.join(TOOLS, "compare")]

import items  # noqa: E402
import texts  # noqa: E402
from rechecking.certificate import Fault  # noqa: E402
from rechecking.grid import down, multiples, rounded, show, up  # noqa: E402
from rechecking.judge import lines_of  # noqa: E402
from rechecking.script import Refused, Script, literal_of  # noqa: E402
from reference import certificate  # noqa: E402

SEED = 20
PRODUCT = b"{ x in [1,2] /\\ y in [3,5] -> x * y in ? }"
OLD = bytes.fromhex("""
46585043 01 0003 00 0000 00 0001 05 0000 0001 0000
01 64 0000 01 0000 00 0000000000000001 0000 00 0000000000000001 0001 00 0000
01 64 0001 01 0001 00 0000000000000003 0000 00 0000000000000005 0000 00 0000
01 06 0000 01 0002 00 0000000000000003 0000 00 0000000000000005 0001 00
   0002 0000000000000000 0000000000000001
03 0001 0000000000000002""")
NEW = bytes.fromhex("""
46585043 02 03 00 00 00 01 05 00 01 00
01 64 00 01 00 00 02 00 00 02 02 00 00 01 64 01 01 01 00 06 00 00 0a 00 00 00
01 06 00 01 02 00 06 00 00 0a 02 00 02 02 01 03 01 01 06 01 03""")


def ran(words, folder):
    """Status and lines of a run of the program."""
    done = subprocess.run([PROGRAM] + words, cwd=folder, stdout=subprocess.PIPE)
    return done.returncode, done.stdout.decode()


def rechecked(text, cert):
    """The same of `recheck`; a script that it refuses has status 3 and no line."""
    try:
        return 0, lines_of(Script(text), cert)
    except Refused:
        return 3, ""
    except Fault as fault:
        return 5, "certificate: %s\n" % fault


def examples():
    """For each example that is proved its name, its script and its certificate."""
    found = []
    with tempfile.TemporaryDirectory() as folder:
        for kind in ("features", "programs"):
            for name in sorted(os.listdir(os.path.join(TOP, "examples", kind))):
                here = os.path.join(TOP, "examples", kind, name)
                options = []
                if os.path.exists(os.path.join(here, "options")):
                    with open(os.path.join(here, "options")) as file:
                        options = file.read().split()
                words = ["prove", os.path.join(here, "script.fx"), "--cert", name] + options
                if ran(words, folder)[0] == 0:
                    with open(os.path.join(here, "script.fx"), "rb") as file:
                        text = file.read()
                    with open(os.path.join(folder, name), "rb") as file:
                        found.append((name, text, file.read()))
    return found


def damages(cert):
    """Twenty damaged certificates: ten of other bytes, ten of other items."""
    rng, found = random.Random(SEED), []
    old = certificate.read(cert)
    whole = [cert, certificate.write(old, 1)]
    for _ in range(10):
        found.append(texts.damaged(rng, rng.choice(whole), texts.BYTES))
    while len(found) < 20:
        try:
            found.append(certificate.write(items.changed(rng, old), rng.choice([1, 2])))
        except (OverflowError, AssertionError, ValueError, IndexError):
            pass  # a number that has no room in a certificate
    return found


class Examples(unittest.TestCase):
    def setUp(self):
        self.assertTrue(os.path.isfile(PROGRAM), PROGRAM + " isn't built; FIXPROVE names another")

    def test_answers_of_check(self):
        tried, accepted, other = 0, 0, (b"{ z in [0,1] -> z in ? }", b"")
        with tempfile.TemporaryDirectory() as folder:
            for name, text, cert in examples():
                rows = [(text, cert), (text, certificate.write(certificate.read(cert), 1)),
                        (other[0], cert)]
                for script, now in rows + [(text, damaged) for damaged in damages(cert)]:
                    for file, content in (("s", script), ("c", now)):
                        with open(os.path.join(folder, file), "wb") as out:
                            out.write(content)
                    wanted = ran(["check", "s", "c"], folder)
                    self.assertEqual(rechecked(script, now), wanted, (name, now.hex()))
                    tried += 1
                    accepted += wanted[0] == 0
                self.assertEqual(rechecked(text, cert)[0], 0)
                other = text, cert
        self.assertGreater(tried, 23 * 30)
        self.assertLess(accepted, tried / 2)


    def test_scripts_that_check_takes(self):
        taken = 0
        with tempfile.TemporaryDirectory() as folder:
            for seed in range(120):
                rng = random.Random(SEED * 1000 + seed)
                text = texts.any_grammar(rng)
                if seed % 3 == 0:
                    text = texts.damaged(rng, text or b"{")
                for file, content in (("s", text), ("c", b"")):
                    with open(os.path.join(folder, file), "wb") as out:
                        out.write(content)
                status, lines = ran(["check", "s", "c"], folder)
                self.assertEqual(rechecked(text, b""), (status, "" if status == 3 else lines), text)
                taken += status != 3
        self.assertTrue(5 < taken < 60, taken)


class Pages(unittest.TestCase):
    """What docs/FORMATS.md and docs/RULES.md say of some certificates, scripts and numbers."""

    def test_certificates(self):
        wanted = 0, "x * y in [3, 5b1]\n"
        self.assertEqual([rechecked(PRODUCT, OLD), rechecked(PRODUCT, NEW)], [wanted, wanted])
        for cert, line in ((OLD[:-1], "Truncated at 142"), (OLD + b"\0", "TrailingBytes at 143"),
                           (NEW[:-1] + b"\4", "BadCount at 60"), (b"FXPD", "BadMagic at 0"),
                           (b"FXPC\3", "BadVersion at 4")):
            self.assertEqual(rechecked(PRODUCT, cert), (5, "certificate: %s\n" % line))
        weaker = OLD.replace(bytes.fromhex("00 0000000000000005 0001"),
                             bytes.fromhex("00 0000000000000005 0002"))
        self.assertEqual(rechecked(PRODUCT, weaker), (0, "x * y in [3, 5b2]\n"))
        narrower = OLD.replace(bytes.fromhex("00 0000000000000005 0001"),
                               bytes.fromhex("00 0000000000000009 0000"))
        self.assertEqual(rechecked(PRODUCT, narrower), (5, "certificate: BadStep 2\n"))
        self.assertEqual(rechecked(b"{ x in [1,2] -> x + x in ? }", OLD),
                         (5, "certificate: WrongScript 1\n"))

    def test_refusals(self):
        for text in ("{ x in [1,2", "{ x in [2,1] -> x in ? }", "x = 1; x = 2; { x in ? }",
                     "{ x in [0,1] \\/ x in ? }", "{ sqrt(x) in ? }", "{ x in ? } $ x;",
                     "{ x in [0,1] -> x in ? } $ x in 0;", "{ x in [0,1] -> x in ? } !",
                     "{ not x in [0,1] -> x in ? }", "{ x in [5,1e-99] -> x in ? }",
                     "{ @FIX(x,513) -> x in ? }", "{ " + 65 * "(" + "x" + 65 * ")" + " in ? }",
                     "{ x in [0,1] -> x in ? } $ x in 65;", "{x in?}" + 65 * "x~x;"):
            self.assertRaises(Refused, Script, text.encode())
        self.assertRaises(Refused, Script, b"{ x\xff")

    def test_numbers(self):
        one = 1 << 512
        self.assertEqual(show(10 * one), "5b1")
        self.assertEqual([show(down(one // 3)), show(up(one // 3))],
                         ["384307168202282325b-60", "768614336404564651b-61"])
        self.assertEqual(multiples((one // 2, 5 * one // 2), 0), (one, 2 * one))
        wanted = {"zr": (2, -2), "aw": (3, -3), "dn": (2, -3), "up": (3, -2), "od": (3, -3),
                  "ne": (2, -2), "no": (3, -3), "nz": (2, -2), "na": (3, -3), "nd": (2, -3),
                  "nu": (3, -2)}
        for direction, (above, below) in wanted.items():
            half = 5 * one // 2
            self.assertEqual((rounded(direction, 0, half), rounded(direction, 0, -half)),
                             (above * one, below * one), direction)
        self.assertEqual([literal_of(text) for text in ("0.50", "1b-1", "0x1.8p1", "10", "1e9")],
                         [(5, 0, -1), (1, -1, 0), (3, 0, 0), (1, 0, 1), None])


class Command(unittest.TestCase):
    def ran(self, *words):
        done = subprocess.run([sys.executable, os.path.join(TOOLS, "recheck")] + list(words),
                              stdout=subprocess.PIPE, stderr=subprocess.PIPE)
        return done.returncode, done.stdout.decode(), len(done.stderr.splitlines())

    def test_words_and_statuses(self):
        with tempfile.TemporaryDirectory() as folder:
            script, cert, bad = (os.path.join(folder, name) for name in ("s.fx", "c", "bad.fx"))
            for name, content in ((script, PRODUCT), (cert, NEW), (bad, b"{ x in [2,1] }")):
                with open(name, "wb") as out:
                    out.write(content)
            self.assertEqual(self.ran(script, cert), (0, "x * y in [3, 5b1]\n", 0))
            self.assertEqual(self.ran(script, bad), (5, "certificate: BadMagic at 0\n", 0))
            self.assertEqual(self.ran(bad, cert), (2, "", 1))
            self.assertEqual(self.ran(script, cert + "x"), (6, "read fault: %sx\n" % cert, 0))
            self.assertEqual(self.ran("--no", script, cert), (2, "", 1))
            self.assertEqual(self.ran(script), (2, "", 1))
            self.assertEqual(self.ran("--help")[::2], (0, 0))


if __name__ == "__main__":
    unittest.main()
