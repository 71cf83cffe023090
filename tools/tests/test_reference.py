"""Holds the reference to examples of the pages, and to what each limit is and one past it."""
import os
import re
import sys
import unittest

TOP = os.path.dirname(os.path.dirname(os.path.dirname(os.path.abspath(__file__))))
sys.path[:0] = [TOP, os.path.join(TOP, "tools")]

import page_rows  # noqa: E402
from reference import certificate, grid, literal, parser, polynomial, rounding  # noqa: E402
from reference.commands import MemFolder, Program, made_script  # noqa: E402
from reference.facts import NONE, VOID, meet  # noqa: E402
from reference.rules import NUMBERS  # noqa: E402
from reference.tree import answer, leaves_of  # noqa: E402
from reference.universe import Universe  # noqa: E402

PRODUCT = "{ x in [1,2] /\\ y in [3,5] -> x * y in ? }"
HALVED = "{ x in [0,1] -> x * (1 - x) in [0,0.3] } x * (1 - x) $ x;"
HALVED_LINE = "x * ( 1 - x ) in [0, 9b-5]\n"
CUT = "{ x in [0,1] -> x * (1 - x) in ? } $ x in 4;"
CASES = "{ x in [0,1] \\/ x in [3,4] -> x * x in ? }"
OLD = bytes.fromhex("""
46585043 01 0003 00 0000 00 0001 05 0000 0001 0000
01 64 0000 01 0000 00 0000000000000001 0000 00 0000000000000001 0001 00 0000
01 64 0001 01 0001 00 0000000000000003 0000 00 0000000000000005 0000 00 0000
01 06 0000 01 0002 00 0000000000000003 0000 00 0000000000000005 0001 00
   0002 0000000000000000 0000000000000001
03 0001 0000000000000002""")
NEW = bytes.fromhex("""
46585043 02 03 00 00 00 01 05 00 01 00
01 64 00 01 00 00 02 00 00 02 02 00 00 01 64 01 01 01 00 06 00 00 0a 00 00 00
01 06 00 01 02 00 06 00 00 0a 02 00 02 02 01 03 01 01 06 01 03""")


def ran(words, files=(), room=None):
    """Status, text and files of a run in a folder in memory."""
    files = {name: text if isinstance(text, bytes) else text.encode()
             for name, text in dict(files).items()}
    folder = MemFolder(files, room)
    return Program(folder).run(words) + (folder.files,)


def proved(script, *options):
    """Status and text of `prove` on a text."""
    return ran(["prove", "s"] + list(options), {"s": script})[:2]


def rows_of(page, *heads):
    """The rows of the tables of a page that have these heads, their cells without the marks."""
    return [[page_rows.quoted(cell) for cell in row]
            for row in page_rows.table(page_rows.read(page), *heads)]


class Rows(unittest.TestCase):
    """The worked rows of docs/FORMATS.md."""

    def test_scripts(self):
        rows = rows_of("FORMATS.md", "Script", "Lines")
        self.assertGreaterEqual(len(rows), 17)
        for (script,), lines in rows:
            status = 1 if lines[0].startswith("unproved") else 0
            self.assertEqual(proved(script), (status, "".join(x + "\n" for x in lines)), script)

    def test_points(self):
        section = page_rows.section(page_rows.read("FORMATS.md"), "Points")
        entries = [it for it in page_rows.listed(section) if it.startswith("`")]
        self.assertGreaterEqual(len(entries), 4)
        for entry in entries:
            script, *words = page_rows.quoted(entry.replace("at the empty text", "at ``"))
            point, *lines = words
            status = {"too": 11, "point:": 10}.get(lines[0].split()[0], 0)
            self.assertEqual(ran(["at", "s", "p"], {"s": script, "p": point})[:2],
                             (status, "".join(x + "\n" for x in lines)), script)

    def test_faults_of_programs(self):
        rows = rows_of("FORMATS.md", "Fault", "When it comes, and its byte", "Example")
        self.assertGreaterEqual(len(rows), 9)
        page = page_rows.read("FORMATS.md")
        for (kind, *_), _, (text, *_) in rows:
            at = re.search(re.escape("`%s`: at " % text) + r"(\d+) \|", page)
            if at:
                self.assertEqual(ran(["fix", "p", "s"], {"p": text})[:2],
                                 (9, "program: %s at %s\n" % (kind, at.group(1))))

    def test_refusals(self):
        for text, line in (
                ("", "Unexpected at 0"), ("{ x in [1,2", "Unexpected at 11"),
                ("{ x in [2,1] -> x in ? }", "BadBound at 10"),
                ("x = 1; x = 2; { x in ? }", "NameUsed at 7"),
                ("{ x in [0,1] \\/ x in ? }", "FormulaForm at 13"),
                ("{ not x in [0,1] -> x in ? }", "FormulaForm at 2"),
                ("{ sqrt(x) in ? }", "UnsupportedOperator at 2"),
                ("{ x in ? } $ x;", "SplitRange at 13"),
                ("{ x in [0,1] -> x in ? } $ x in 0;", "BadSplit at 32"),
                ("{ x in [0,1] -> x in ? } !", "BadToken at 25"), (b"{ x\xff", "NotText at 3"),
                ("{ x in [5,1e-99] -> x in ? }", "LiteralLimit at 10"),
                ("{ @FIX(x,513) -> x in ? }", "Limit(Lsb) at 9"),
                ("{ x in [2,1] -> x in ? } !", "BadBound at 10"),
                ("{ @FIX(x,0) /\\ x in [1,2", "FormulaForm at 2"),
                (" " * (2 ** 20 + 1), "Limit(Bytes) at 1048576"),
                ("{ x in [0,1] -> x in ? } $ x in 65;", "Limit(Pieces) at 32"),
                ("{" + 64 * "x in[1,2]\\/" + "x in[3,4]->x in?}", "Limit(Cases) at 703"),
                ("y=x" + 512 * "+x" + ";{y in?}", "Limit(Nodes) at 1025")):
            self.assertEqual(proved(text), (3, "script: %s\n" % line))

    def test_limits(self):
        split = ["x%d in [0,1]" % k for k in range(5)]
        for kind, few, more, text in (
                ("Nesting", 64, 65, lambda n: "{ %sx in ? }" % ("-" * n)),
                ("Definitions", 256, 257,
                 lambda n: "".join("a%d = 1;" % k for k in range(n)) + "{ x in ? }"),
                ("Propositions", 128, 129, lambda n: "{ %s }" % " /\\ ".join(["x in ?"] * n)),
                ("Hints", 64, 65, lambda n: "{ x in [0,1] -> x in ? }" + "x $ x;" * n),
                ("Nodes", 256, 257, lambda n: "{ %s in ? }" % " + ".join(["1"] * n)),
                ("Lsb", 512, 513, lambda n: "@r = fixed<-%d,dn>; { x in ? }" % n),
                ("Splits", 4, 5, lambda n: "{ x in [0,1] -> x in ? }" + "$ x in 1;" * n),
                ("Splits", 4, 5, lambda n: "{ %s -> x0 in ? } x0 $ %s;" % (
                    " /\\ ".join(split), ", ".join("x%d" % k for k in range(n)))),
                ("Pieces", 63, 64, lambda n: "{ x in [0,1] -> x in ? } $ x in (%s);" % ", ".join(
                    "%db-8" % k for k in range(1, n + 1)))):
            self.assertNotEqual(proved(text(few), "--depth", "0")[0], 3, kind)
            self.assertEqual(proved(text(more))[1].split(" at ")[0], "script: Limit(%s)" % kind)

    def test_literals(self):
        for few, more in (("1" * 30, "1" * 31), ("1e8", "1e9"), ("1e-30", "1e-31"),
                          ("1b512", "1b513"), ("0x" + "f" * 25, "0x" + "f" * 26),
                          ("1." + "0" * 29, "1." + "0" * 30)):
            self.assertNotEqual(proved("{ %s in ? }" % few)[0], 3, few)
            self.assertEqual(proved("{ %s in ? }" % more), (3, "script: LiteralLimit at 2\n"))
        for text, wanted in (("0.50", (5, 0, -1)), ("1b-1", (1, -1, 0)), ("0x1.8p1", (3, 0, 0)),
                             ("10", (1, 0, 1)), ("1.", "BadLiteral"), ("1e9", "LiteralLimit")):
            self.assertEqual(literal.read(text), wanted)
        self.assertEqual([literal.fix_of(literal.read(x)) for x in ("0.75", "0.1", "12", "0")],
                         [-2, None, 2, 512])


class Certificates(unittest.TestCase):
    def check(self, script, cert):
        return ran(["check", "s", "c"], {"s": script, "c": cert})[:2]

    def test_rows(self):
        for cert in (OLD, NEW):
            self.assertEqual(self.check(PRODUCT, cert), (0, "x * y in [3, 5b1]\n"))
        at = OLD.rindex(bytes.fromhex("00 0000000000000005 0001"))
        narrow = (720575940379279359).to_bytes(8, "big") + (-56).to_bytes(2, "big", signed=True)
        cite = OLD.rindex(bytes.fromhex("0002 0000000000000000 0000000000000001")) + 9
        for cert, line in (
                (OLD[:at + 1] + narrow + OLD[at + 11:], "BadStep 2"),
                (OLD[:cite] + b"\2" + OLD[cite + 1:], "BadPremise 2"),
                (OLD + b"\0", "TrailingBytes at 143"), (NEW + b"\0", "TrailingBytes at 61"),
                (OLD[:4] + b"\x09" + OLD[5:], "BadVersion at 4"),
                (NEW[:-1] + b"\4", "BadCount at 60"),
                (NEW[:13] + b"\x80\0" + NEW[14:], "BadNumber at 13")):
            self.assertEqual(self.check(PRODUCT, cert), (5, "certificate: %s\n" % line))
        self.assertEqual(self.check("{ x in [1,2] -> x + x in ? }", OLD),
                         (5, "certificate: WrongScript 1\n"))
        for cert in (OLD, NEW):
            for n in range(len(cert)):
                self.assertEqual(self.check(PRODUCT, cert[:n]),
                                 (5, "certificate: Truncated at %d\n" % n))

    def test_a_turned_bit_shows_nothing_false(self):
        for n in range(8 * len(OLD)):
            cert = bytearray(OLD)
            cert[n // 8] ^= 1 << n % 8
            status, text = self.check(PRODUCT, bytes(cert))
            if status == 0:
                found = re.fullmatch(r"x \* y in \[(\S+), (\S+)\]\n", text)
                low, high = (self.number(end) for end in found.groups())
                self.assertTrue(low <= 3 and high >= 10, (n, text))

    def number(self, text):
        mantissa, _, power = text.partition("b")
        return float("-inf" if text == "-inf" else "inf" if text == "+inf" else int(
            mantissa) * 2.0 ** int(power or 0))

    def test_written_and_rewritten(self):
        for script in (HALVED, CUT, CASES):
            status, text, files = ran(["prove", "s", "--cert", "c"], {"s": script})
            self.assertEqual((status,) + self.check(script, files["c"]), (0, 0, text))
        self.assertEqual(self.check("{ x in [0,1] -> x * x in ? }", files["c"]),
                         (5, "certificate: BadCases 2\n"))
        status, text, files = ran(["upgrade", "c", "n"], {"c": OLD})
        self.assertEqual((status, text, files["n"]),
                         (0, "upgraded: 1 sections, 3 steps\n", NEW))
        one, two, end = (OLD.index(bytes.fromhex(x)) for x in ("01640001", "01060000", "030001"))
        twice = OLD[:two] + OLD[one:two] + OLD[two:-1] + b"\3"
        self.assertLess(two, end)
        for cert, text in ((OLD, "trimmed: 3 of 3 steps\n"), (twice, "trimmed: 3 of 4 steps\n")):
            found = ran(["trim", "s", "c", "n"], {"s": PRODUCT, "c": cert})
            self.assertEqual((found[0], found[1], found[2]["n"]), (0, text, NEW))

    def test_a_full_disk(self):
        whole = ran(["prove", "s", "--cert", "c"], {"s": HALVED})[2]["c"]
        status, text, files = ran(["prove", "s", "--cert", "c"], {"s": HALVED}, room=100)
        self.assertEqual((status, text, files["c"]), (7, "", whole[:100]))
        self.assertEqual(ran(["prove", "s"])[:2], (6, "read fault: s\n"))


class Answers(unittest.TestCase):
    def test_boxes(self):
        self.assertEqual(proved(HALVED), (0, HALVED_LINE))
        found = answer(parser.parse(HALVED.encode()), 20, 16, 4096)
        self.assertEqual(found.boxes, 15)
        self.assertEqual([box.path for box in leaves_of(found.trees[0][1])],
                         [(0, 0), (0, 1, 0), (0, 1, 1, 0), (0, 1, 1, 1), (1, 0, 0, 0),
                          (1, 0, 0, 1), (1, 0, 1), (1, 1)])
        for words, wanted in (
                ("--depth 3", (1, "unproved: goal 1 at x in [3b-3, 1b-1]\n")),
                ("--depth 0", (1, "unproved: goal 1 at x in [0, 1]\n")),
                ("--boxes 14", (4, "limit: more than 14 boxes\n")),
                ("--boxes 15", (0, HALVED_LINE)), ("--workers=16", (0, HALVED_LINE)),
                ("--depth 3 --boxes 3", (4, "limit: more than 3 boxes\n"))):
            self.assertEqual(proved(HALVED, *words.split()), wanted)
        self.assertEqual(answer(parser.parse(CUT.encode()), 20, 16, 4096).boxes, 5)
        self.assertEqual(proved("{ x in [-1,1] -> 1 / x in ? } 1 / x $ x;", "--depth", "2"),
                         (1, "unproved: goal 1 at x in [-1b-1, 0]\n"))
        self.assertEqual(proved(CASES, "--boxes", "1"), (4, "limit: more than 1 boxes\n"))

    def test_rules(self):
        """Scripts that are proved by some rules alone."""
        for script, line in (
                ("{ x in [2.5,2.5] -> int<zr>(x) in ? }", "int < zr > ( x ) in [1b1, 1b1]"),
                ("{ x in [-2,3] -> x * x - x in ? }", "x * x - x in [-3, 11]"),
                ("{ x in [-3,1] -> |x| in ? }", "| x | in [0, 3]"),
                ("{ @FIX(x,0) /\\ x in [0.5,2.5] -> x in ? }", "x in [1, 1b1]"),
                ("{ x in [1,2] -> x / x in ? }", "x / x in [1, 1]"),
                ("{ x - y in [0,1] /\\ x in [5,6] -> y in ? }", "y in [1b2, 3b1]"),
                ("{ x -/ y in [-0.5,0.5] /\\ y in [2,4] -> x in ? }", "x in [1, 3b1]"),
                ("{ x -/ y in [-0.5,-0.25] /\\ x -/ y in [0.25,0.5] -> x -/ y in ? }",
                 "x -/ y in none"),
                ("@q = fixed<-15,dn>; x = q(xx); y q= x * x; My = x * x;"
                 " { xx in [0,1] -> y - My in ? }", "y - My in [-32767b-30, 0]"),
                ("{ x in [0,1] -> x * x - x in ? } x * x - x -> (x - 0.5) * (x - 0.5) - 0.25;",
                 "x * x - x in [-1b-2, 0]"),
                ("{ x in [1,2] /\\ y in [2,3] -> y / x * x in ? } y / x * x -> y;",
                 "y / x * x in [1b1, 3]")):
            self.assertEqual(proved(script), (0, line + "\n"))
        self.assertEqual(NUMBERS, [it.number for it in page_rows.rules(page_rows.read("RULES.md"))])

    def test_the_universe(self):
        likes = "{ a in ? }" + "".join(" a ~ b%d;" % k for k in range(1, 32))
        self.assertEqual(len(Universe(parser.parse(likes.encode())).dag), 993)
        self.assertEqual(proved(likes)[0], 1)
        self.assertEqual(proved(likes + " a ~ b32;"), (4, "limit: more than 1024 expressions\n"))

    def test_hints(self):
        big = " * ".join(["(a + b + c)"] * 8)
        for left, right, wanted in (("x / x * x", "x", "Same"), ("x * x", "x", "Differs"),
                                    (big, big, "Same")):
            script = parser.parse(("{ x in ? } %s -> %s;" % (left, right)).encode())
            hint = script.hints[0]
            self.assertEqual(polynomial.same(script.dag, hint.left, hint.right), wanted)
        self.assertEqual(len(polynomial.form(script.dag, hint.left)[0].terms), 45)


class Numbers(unittest.TestCase):
    def test_roundings(self):
        for direction, above, below in (
                ("zr", 2, -2), ("aw", 3, -3), ("dn", 2, -3), ("up", 3, -2), ("od", 3, -3),
                ("ne", 2, -2), ("no", 3, -3), ("nz", 2, -2), ("na", 3, -3), ("nd", 2, -3),
                ("nu", 3, -2)):
            half = 5 << 511
            self.assertEqual((rounding.round_grid(direction, 0, half),
                              rounding.round_grid(direction, 0, -half)),
                             (above << 512, below << 512), direction)

    def test_intervals(self):
        one = grid.ONE
        self.assertEqual(grid.middle(-one, 2 * one), one // 2)
        self.assertIsNone(grid.middle(0, 1))
        self.assertEqual(grid.show(grid.part_down(0, one, 1, 3)), "384307168202282325b-60")
        self.assertIsNone(grid.div((one, one), (0, 2 * one)))
        far, near = (2 * one, 3 * one), (0, one)
        self.assertEqual(meet((("B", 0), near), (("B", 0), far)), VOID)
        self.assertEqual(meet((("R", 0, 1), near), (("R", 0, 1), far)), (("R", 0, 1), NONE))
        self.assertIsNone(meet((("B", 0), near), (("A", 0), near)))


class Commands(unittest.TestCase):
    def test_words(self):
        usage = ("usage: fixprove prove SCRIPT [--cert FILE] [--rounds N] [--depth N] [--boxes N] "
                 "[--workers N] | check SCRIPT CERT | gen N | upgrade CERT NEW | fix PROGRAM SCRIPT"
                 " | at SCRIPT POINT | trim SCRIPT CERT NEW | batch LIST [--rounds N] [--depth N] "
                 "[--boxes N] [--workers N]\n")
        files = {"a": PRODUCT, "-a": PRODUCT}
        for words in ("prove a --rounds 0", "prove a --cert a", "prove a --depth 03", "", "gen 0",
                      "gen 13", "gen 01", "prove a b", "prove a --rounds", "prove a --rou 3",
                      "prove a -h", "prove a --rounds 3 --rounds 3", "help"):
            self.assertEqual(ran(words.split(), files)[:2], (2, usage), words)
        for words in ("prove a --rounds=3", "prove --rounds 3 a", "prove -- -a"):
            self.assertEqual(ran(words.split(), files)[:2], (0, "x * y in [3, 5b1]\n"), words)

    def test_gen(self):
        self.assertIn("y q= 48b-6 * x + 11b-6;", made_script(1))
        self.assertEqual(ran(["gen", "1"])[:2], (0, "gen 1: 65 boxes, [-1b-12, 0]\n"))
        self.assertEqual(ran(["gen", "2"])[:2], (0, "gen 2: 65 boxes, [-1b-11, 0]\n"))

    def test_fix(self):
        text = "in x : s16.15 [%s]; y : s16.15 dn = x * x; out y;"
        status, line, files = ran(["fix", "p", "s"], {"p": text % "0,0.5"})
        self.assertEqual((status, line, files["s"].decode()), (
            0, "fix: 1 steps, 1 outputs\n",
            "y = fixed<-15,dn>(x * x);\n{ x in [0, 0.5] /\\ @FIX(x,-15) -> "
            "y in [-32768b-15, 32767b-15] /\\ y in ? }\n"))
        self.assertEqual(proved(files["s"]), (0, "y in [0, 1b-2]\ny in [0, 1b-2]\n"))
        made = ran(["fix", "p", "s"], {"p": text % "-1,0.5"})[2]["s"]
        self.assertEqual(proved(made), (1, "unproved: goal 1 at the whole box\n"))
        self.assertEqual(ran(["fix", "p", "s"], {"p": "in x : s16.15 [0,1]; out x;"})[:2],
                         (9, "program: BadRange at 17\n"))

    def test_batch(self):
        self.assertEqual(ran(["batch", "l"], {"l": "a\nb\n", "a": PRODUCT, "b": "{ x in ? }"})[:2],
                         (1, "script a\nx * y in [3, 5b1]\n"
                             "script b\nunproved: goal 1 at the whole box\n"))
        self.assertEqual(ran(["batch", "l"], {"l": ""})[:2], (12, "list: EmptyName at 0\n"))

    def test_items(self):
        """Items are read back as they were written."""
        for version in (1, 2):
            items = certificate.read(certificate.write(certificate.read(OLD), version))
            self.assertEqual(items, certificate.read(OLD))


if __name__ == "__main__":
    unittest.main()
