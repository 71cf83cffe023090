"""Tests of tools/from_c: routines with their truth, what is served and refused, planted faults."""

import io
import json
import os
import re
import shutil
import subprocess
import sys
import tempfile
import unittest
from contextlib import redirect_stderr, redirect_stdout
from fractions import Fraction
from importlib.machinery import SourceFileLoader
from importlib.util import module_from_spec, spec_from_loader

TOOLS = os.path.dirname(os.path.dirname(os.path.abspath(__file__)))
TOOL = os.path.join(TOOLS, "from_c")
ROUTINES = os.path.join(TOOLS, "c_routines")
PROGRAM = os.environ.get("FIXPROVE") or os.path.join(os.path.dirname(TOOLS), "crates", "fx_main",
                                                    "out", "fx_main")
QUICK = ["--reach", "0.01", "--narrow", "0", "--seconds", "2"]
sys.path.insert(0, TOOLS)
sys.dont_write_bytecode = True
ABLE = os.access(PROGRAM, os.X_OK) and shutil.which("gcc")


def loaded():
    loader = SourceFileLoader("from_c", TOOL)
    module = module_from_spec(spec_from_loader("from_c", loader))
    loader.exec_module(module)
    return module


def ran(*words):
    """Status, lines, and what is said on standard error, of the tool in this process."""
    out, err = io.StringIO(), io.StringIO()
    tool = loaded()
    with redirect_stdout(out), redirect_stderr(err):
        try:
            status = tool.main(list(words) + ["--program", PROGRAM])
        except tool.shared.Fault as fault:
            status = 2
            err.write("%s\n" % fault)
        except SystemExit as end:
            status = end.code
    return status, out.getvalue().splitlines(), err.getvalue()


def flat(lines):
    """Lines as one text, those that are folded put together again."""
    return re.sub(r"\n {6}", " ", "\n".join(lines))


class Case(unittest.TestCase):
    def setUp(self):
        if not ABLE:
            self.skipTest("the built program or gcc isn't there")
        folder = tempfile.TemporaryDirectory(prefix="fixprove-")
        self.addCleanup(folder.cleanup)
        self.folder = folder.name

    def file(self, text, name="it.c"):
        name = os.path.join(self.folder, name)
        with open(name, "w", encoding="ascii") as it:
            it.write(text)
        return name

    def c(self, text, *words):
        """The tool on a text, with the header before it."""
        return ran(self.file("#include <stdint.h>\n" + text), *QUICK, *words)


def intervals(lines):
    """{output: interval}, {output: interval of its error}, as lines print them."""
    values, errors = {}, {}
    for line in flat(lines).split("\n"):
        match = re.match(r"  (\w+)( - (?:exact|given twin))? in \[(\S+), (\S+)\]", line)
        if match:
            name, error, low, high = match.groups()
            (errors if error else values)[name] = Fraction(low), Fraction(high)
    return values, errors


class Routines(Case):
    """The routines of c_routines: verdicts, places, and intervals that hold all that was met."""

    def test_truth(self):
        with open(os.path.join(ROUTINES, "truth.json"), encoding="ascii") as it:
            truth = json.load(it)
        words = {"proved": 0, "wraps": 1, "refused": 3}
        for name, true in sorted(truth.items()):
            with self.subTest(routine=name):
                self.one(os.path.join(ROUTINES, name + ".c"), name, true, words)

    def one(self, file, name, true, words):
        status, lines, _ = ran(file, "--test", "6", *QUICK)
        said = flat(lines)
        self.assertEqual(status, words[true["verdict"]], said)
        for place in true["places"]:
            self.assertRegex(said, r"(FALSE|refused:) %s\.c:%s:" % (name, place))
        if true["verdict"] == "refused":
            return
        self.assertIn(", 0 differences", said)
        self.assertEqual(said.count("FALSE"), len(true["places"]), said)
        values, errors = intervals(lines)
        for key, (low, high, *more) in true["outs"].items():
            self.assertLessEqual(values[key][0], low, key)
            self.assertGreaterEqual(values[key][1], high, key)
            if more and more != [0, 0]:
                self.assertLessEqual(errors[key][0], Fraction(more[0]) + Fraction(1, 10**6), key)
                self.assertGreaterEqual(errors[key][1], Fraction(more[1]) - Fraction(1, 10**6), key)


class Served(Case):
    """C that is served: the verdict, and the test against gcc."""

    def good(self, text, *words):
        status, lines, _ = self.c(text, "--test", "20", *words)
        said = flat(lines)
        self.assertEqual(status, 0, said)
        self.assertRegex(said, r"test: \d+ words, something wraps at \d+, 0 differences")
        return said

    def wraps(self, text, place, *words):
        status, lines, _ = self.c(text, "--test", "20", *words)
        said = flat(lines)
        self.assertEqual(status, 1, said)
        self.assertIn("FALSE it.c:%s:" % place, said)
        self.assertIn("fails by `at`", said)
        self.assertIn(", 0 differences", said)
        return said

    def test_switch(self):
        text = ("/* ranges: x=-100..100 m=0..9 */\nint32_t f(int32_t x, uint8_t m)\n{\n    "
                "switch (m)"
                " {\n    case 0: x = 1; break;\n    case 2: x = x * 2;\n    case 3: x += 5; "
                "break;\n"
                "    default: x = -x;\n    }\n    return x;\n}\n")
        for more in ((), ("--join",)):
            self.assertIn("result in [-195, 205]", self.good(text, *more))

    def test_loops(self):
        said = self.good("/* ranges: x[4]=-9..9 */\nint32_t f(const int8_t *x)\n{\n    int32_t s "
                         "= 0;"
                         "\n    int n = 4;\n    do {\n        s += *x++;\n    } while (--n);\n"
                         "    while (n < 3) { n++; if (n == 2) continue; s += n; }\n"
                         "    return s;\n}\n")
        self.assertIn("result in [-32, 40]", said)

    def test_remainder(self):
        said = self.good("/* ranges: a=-1000..1000 b=0..1000 */\nint32_t f(int32_t a, int32_t "
                         "b)\n{\n"
                         "    return a % 7 + b % 10 + (int32_t)((uint32_t)b % 8);\n}\n")
        self.assertIn("result in [-6, 22]", said)

    def test_bits(self):
        said = self.good("/* ranges: r=0..255 g=0..255 b=0..255 */\nuint32_t f(uint8_t r, "
                         "uint8_t g,"
                         " uint8_t b)\n{\n    uint32_t w = ((uint32_t)r << 16) | ((uint32_t)g << "
                         "8) | "
                         "b;\n    return (w & 0xff00ffu) | 1u;\n}\n")
        self.assertIn("result in [1, 16711935]", said)

    def test_pointers(self):
        said = self.good("typedef struct { int32_t acc; int16_t h[3]; } st;\n"
                         "static void turn(int32_t *x, int32_t *y)\n{\n    int32_t t = *x;\n"
                         "    *x = *y;\n    *y = -t;\n}\n"
                         "static int32_t dot(const int16_t *a, const int16_t *b, int n)\n{\n"
                         "    int32_t s = 0;\n    for (int i = 0; i < n; i++) s += a[i] * *b++;\n"
                         "    return s;\n}\nstatic const int16_t c[3] = { 1, 2, 3 };\n"
                         "/* ranges: s_acc=-99..99 s_h[3]=-9..9 x=-9..9 */\n"
                         "int32_t f(st *s, int16_t x)\n{\n    int32_t a = s->acc, b = x;\n"
                         "    turn(&a, &b);\n    s->h[2] = s->h[1];\n    s->h[1] = s->h[0];\n"
                         "    s->h[0] = x;\n    s->acc = dot(s->h, c, 3);\n    return a + b;\n}\n")
        self.assertIn("s_acc in [-54, 54]", said)
        self.assertIn("result in [-108, 108]", said)

    def test_index(self):
        text = ("/* ranges: buf[4]=-100..100 pos=0..3 x=-100..100 */\nint32_t f(int16_t *buf, "
                "uint8_t "
                "pos, int16_t x)\n{\n    buf[pos] = x;\n    return buf[(pos + 1) & 3] + "
                "buf[pos];\n}\n")
        self.assertIn("result in [-200, 200]", self.good(text))
        self.wraps(text.replace("pos=0..3", "pos=0..4"), "5:5", )

    def test_helpers(self):
        said = self.good("/* ranges: x=-100000..100000 a=-2^31..2^31-1 b=-2^31..2^31-1 */\n"
                         "int32_t f(int32_t x, int32_t a, int32_t b)\n{\n"
                         "    int32_t s = __QADD(a, b) >> 1;\n"
                         "    return __SSAT(x, 16) + (int32_t)__USAT(x, 8) + (s >> 8) + "
                         "(__SMULBB(a, b) >> 2);\n}\n", "--join")
        self.assertIn("joined", said)
        self.wraps("int32_t f(uint32_t a, uint32_t b)\n{\n    return __SMLAD(a, b, 5);\n}\n",
                   "4:12",
                   "--join")

    def test_joined_loop(self):
        text = ("static int16_t sat(int32_t x)\n{\n    if (x > 32767) return 32767;\n"
                "    if (x < -32768) return -32768;\n    return (int16_t)x;\n}\n"
                "/* ranges: x[8]=-32768..32767 g=0..65535 */\n"
                "void f(const int16_t *restrict x, int16_t *restrict y, int32_t g)\n{\n"
                "    for (int i = 0; i < 8; i++) y[i] = sat((x[i] * (g >> 1)) >> 14);\n}\n")
        said = self.good(text)
        self.assertIn("1 path, joined", said)
        self.assertIn("y_7 in [-32768, 32767]", said)
        self.assertRegex(said, r"y_7 - exact in \[-2.99\d+, 1.99\d+\]|y_7 - exact in \[-\d\.\d+, ")

    def test_join_asks_in_each_way(self):
        """A product that is computed in two ways is asked in each, not in the first alone."""
        text = ("/* ranges: a=0..100000 b=0..100000 c=0..100000 */\n"
                "int32_t f(int32_t a, int32_t b, int32_t c)\n{\n    int32_t r = 0;\n"
                "    if (c < 5) {\n        if (a < 100) r = a * b;\n    } else\n        r = a * "
                "b;\n"
                "    return r;\n}\n")
        self.wraps(text, "9:13", "--join")

    def test_join_of_equal_ways(self):
        """A product that each way gives is known after the join."""
        said = self.good("/* ranges: a=-9..9 b=-9..9 c=-5..5 */\nint32_t f(int32_t a, int32_t b, "
                         "int32_t c)\n{\n    int32_t t;\n    if (c > 0) t = a * b; else t = a * b;"
                         "\n    return t * 2;\n}\n", "--join")
        self.assertIn("result in [-162, 162]", said)

    def test_join_by_cases(self):
        """Which of two joined words is greater, of too many paths to run each."""
        said = self.good("/* ranges: a[10]=0..255 b[10]=0..255 */\n"
                         "void f(const uint8_t *restrict a, const uint8_t *restrict b,\n"
                         "       uint8_t *restrict d)\n{\n"
                         "    for (int i = 0; i < 10; i++) {\n"
                         "        int16_t low = a[i], high = b[i];\n        if (low > high) {\n"
                         "            int16_t t = low;\n            low = high;\n"
                         "            high = t;\n        }\n"
                         "        d[i] = (uint8_t)(high - low);\n    }\n}\n")
        self.assertIn("1 path, joined", said)
        self.assertIn("d_9 in [0, 255]", said)

    def test_rules(self):
        """Promotions, sizes, hidden names, commas, enums, quotients and shifts of negative numbers,
        each a rule of C that a reader may get wrong."""
        said = self.good(
            "enum { LOW = -3, NEXT, HIGH = 0x10 };\n"
            "static const int16_t tab[] = { 1, -2, 3, 'A' };\n"
            "/* ranges: a=-100..100 b=0..200 c=-100..100 */\n"
            "int32_t f(int8_t a, uint8_t b, int8_t c)\n{\n"
            "    int32_t n = (int32_t)(sizeof tab / sizeof tab[0]);\n"
            "    int32_t m = (int32_t)(sizeof(0, a) + sizeof(a + b) + sizeof(int64_t)\n"
            "        + sizeof 'x');\n"
            "    int32_t s = a * b - c, q = (a - b) / 7 + (a << 3) / 5 + (-a >> 1);\n"
            "    { int32_t n = 2; s += n; }\n"
            "    for (int i = 0, j = 3; i < j; i++, j--) s += tab[i] * tab[j];\n"
            "    s += (~b & 0xff) + (b > 100) + (a < c ? a : HIGH) + NEXT + LOW;\n"
            "    return s + q + n * m;\n}\n")
        self.assertIn(" paths, ", said)
        self.wraps("/* ranges: a=-5..5 b=1..9 */\nint64_t f(int32_t a, uint32_t b)\n{\n"
                   "    return b > 3 ? a : b;\n}\n", "5:12")
        status, lines, _ = self.c("int16_t f(void)\n{\n    static int16_t t[3] = { 5 };\n"
                                  "    t[0] = (int16_t)(t[0] / 2);\n    t[1] = t[2];\n"
                                  "    return (int16_t)(t[0] + t[1]);\n}\n")
        self.assertEqual(status, 0, lines)
        for line in ("t_0 in [0, 5], from its first value 5", "t_2 in [0, 0], from its first"):
            self.assertIn("state " + line, flat(lines))

    def test_meant_to_wrap(self):
        said = self.good("uint32_t f(uint32_t *phase, uint32_t step, uint16_t now, uint16_t then)"
                         "\n{\n    *phase += step * 3u;  /* wraps: a turn is 2^32 */\n"
                         "    uint16_t d = (uint16_t)(now - then);  // wraps\n"
                         "    int16_t s = (int16_t)d;  // wraps\n"
                         "    return (*phase >> 1) + d + (uint32_t)(s + 32768);\n}\n")
        self.assertIn("proved: no other operation and no other conversion leaves its type", said)
        for place, text in (("4:15", "step * 3u"), ("4:6", "(*phase) + (step * 3u)"),
                            ("5:18", "(uint16_t) (now - then)"), ("6:17", "(int16_t) d")):
            self.assertIn("meant to wrap: it.c:%s: %s" % (place, text), said)
        self.assertIn("phase in [0, 4294967295]", said)
        # neither what is signed, nor what another comment tells
        self.wraps("int32_t f(int32_t a)\n{\n    return a + 1;  // wraps\n}\n", "4:12")
        self.wraps("/* ranges: a=0..9 */\nuint32_t f(uint32_t a)\n{\n"
                   "    return a - 1u;  /* wraps never */\n}\n", "5:12")
        _, _, said = self.c("uint32_t f(uint16_t a)\n{\n    return a + 1u;  // wraps\n}\n")
        self.assertIn("nothing that may wrap is on line 4", said)

    def test_unsigned(self):
        self.wraps("/* ranges: a=-5..5 b=1..9 */\nint64_t f(int32_t a, uint32_t b)\n{\n"
                   "    return a / b;\n}\n", "5:12")
        self.wraps("/* ranges: a=0..5 b=0..5 */\nuint32_t f(uint32_t a, uint32_t b)\n{\n"
                   "    return a - b;\n}\n", "5:12")

    def test_assumed(self):
        """A word that misses what is assumed is no counterexample, and isn't tested."""
        text = ("/* ranges: a=0..100 b=0..100 */\nuint32_t f(uint32_t a, uint32_t b)\n{\n"
                "    return a - b;\n}\n")
        said = self.good(text, "--assume", "a - b >= 0", "--hint", "b -> a - (a - b);")
        self.assertIn("assumed: a - b >= 0", said)
        self.assertIn("checked: hint b -> a - (a - b);", said)
        status, lines, _ = self.c(text, "--assume", "a - b >= -1")
        self.assertEqual(status, 1, lines)
        self.assertIn("OPEN  it.c:5:12", flat(lines))
        self.assertNotIn("FALSE", flat(lines))

    def test_division_by_zero(self):
        self.wraps("/* ranges: a=0..5 b=0..5 */\nint32_t f(int32_t a, int32_t b)\n{\n"
                   "    return a / b;\n}\n", "5:12")

    def test_state(self):
        text = ("int16_t f(int16_t x)\n{\n    static int32_t acc = 0;\n"
                "    acc += ((int32_t)x * 256 - acc) >> 4;\n    return (int16_t)(acc >> 8);\n}\n")
        status, lines, _ = self.c(text)
        self.assertEqual(status, 0, lines)
        said = flat(lines)
        match = re.search(r"state acc in \[(-?\d+), (-?\d+)\], from its first value 0", said)
        self.assertTrue(match, said)
        self.assertLessEqual(int(match.group(1)), -8388608 + 16)
        self.assertLess(int(match.group(2)), 8400000)
        status, lines, _ = self.c(text, "--range", "acc=-1000..1000")
        self.assertEqual(status, 1)
        self.assertIn("the range of acc", flat(lines))
        status, lines, _ = self.c(text, "--range", "acc=1..8388352")
        self.assertEqual(status, 3)
        self.assertIn("hasn't its first value 0", lines[0])

    def test_state_that_grows(self):
        status, lines, _ = self.c("int32_t f(int16_t x)\n{\n    static int32_t sum;\n    sum += "
                                  "x;\n"
                                  "    return sum;\n}\n")
        self.assertEqual(status, 1, lines)

    def test_state_that_calls_dont_reach(self):
        """A range that intervals can't bound is the type's: a word in it needn't be reached."""
        status, lines, _ = self.c("int32_t f(int16_t x)\n{\n    static const int32_t one = 1;\n"
                                  "    static int32_t a, b;\n    int32_t t = a;\n    a = b + one"
                                  " - 1;\n    b = x - t;\n    return a / 2 + b / 2;\n}\n")
        said = flat(lines)
        self.assertEqual(status, 1, said)
        self.assertNotIn("FALSE", said)
        self.assertIn("whether calls reach this state isn't known", said)

    def test_twin(self):
        said = self.good("/* ranges: a=0..1000 b=0..1000\n   exact: a * b / 3 */\n"
                         "int32_t f(int32_t a, int32_t b)\n{\n    return a * b / 3;\n}\n")
        self.assertIn("result - given twin in [-1, 0] units", said)


class Traps(Case):
    """Texts that were once proved, and are false."""

    def verdict(self, text, status, *said):
        words = [] if "static" in text else ["--test", "20"]  # (statics can't be set)
        found, lines, _ = self.c(text, *words)
        self.assertEqual(found, status, lines)
        for one in said:
            self.assertIn(one, flat(lines))
        self.assertNotIn("paths take", flat(lines))

    def test_a_way_that_is_excluded_is_asked(self):
        self.verdict("/* ranges: a=0..2^31-1 b=0..2^31-1 */\nint32_t f(int32_t a, int32_t b)\n{\n"
                     "    int32_t t = a + b;\n    if (t == 2147483647) return 0;\n    return t;\n"
                     "}\n", 1, "FALSE", "signed integer overflow", ", 0 differences")

    def test_a_state_that_is_written_alone_is_asked(self):
        self.verdict("/* ranges: x=-5..5 s=-12..12 */\nint32_t f(int16_t x, int16_t n)\n{\n"
                     "    static int32_t s = 0;\n    if (n > 5) { if (x > 0) s = x * 4; return 0; }"
                     "\n    s = s / 2 + x;\n    return s;\n}\n", 1, "x * 4: the range of s")

    def test_a_size_by_a_variable(self):
        self.verdict("const int32_t N = 8;\nint32_t f(int16_t x)\n{\n    const int32_t N = 4;\n"
                     "    int32_t a[N];\n    for (int i = 0; i < 6; i++) a[i] = x;\n"
                     "    return a[5];\n}\n", 3, "isn't a constant")

    def test_pointers_into_two_arrays(self):
        self.verdict("typedef struct { int32_t a[3]; int32_t b[3]; } st;\n/* ranges: x=0..5 */\n"
                     "int32_t f(st *s, int16_t x)\n{\n    if (s->a == s->b) return 100000000 * x;\n"
                     "    return x;\n}\n", 3, "pointers to different places")

    def test_the_size_of_a_field(self):
        self.verdict("typedef struct { int16_t h[3]; } st;\n/* ranges: s_h=0..32767 */\n"
                     "int32_t f(st *s)\n{\n    int32_t r = 0;\n    for (int i = 0; i < "
                     "(int)(sizeof s->h / sizeof s->h[0]); i++) r += s->h[i] * 20000;\n"
                     "    return r;\n}\n", 0, "result in [0, 1966020000]", ", 0 differences")

    def test_a_change_that_a_call_sees(self):
        self.verdict("static int32_t n;\nstatic int32_t g(void) { return n; }\n"
                     "/* ranges: n=0..9 */\nint32_t f(int32_t a)\n{\n    return n++ + g();\n"
                     "}\n", 3, "it.c:7:12: n changes in an expression in which a call")

    def test_a_change_that_a_pointer_sees(self):
        self.verdict("/* ranges: a=0..9 */\nint32_t f(int32_t a)\n{\n    int32_t *p = &a;\n"
                     "    return a++ + *p;\n}\n", 3, "it.c:6:12: a changes in an expression")

    def test_changes_one_after_the_other(self):
        self.verdict("static int32_t n;\nstatic int32_t g(void) { return n; }\n"
                     "/* ranges: n=0..9 */\nint32_t f(int32_t a)\n{\n"
                     "    return n++ > 3 && g() > 7;\n}\n", 0, "n in [1, 10]")

    def test_a_pointer_called_result(self):
        self.verdict("/* ranges: a=0..9 */\nint32_t f(int32_t a, int32_t *result)\n{\n"
                     "    *result = a * 2;\n    return a + 100;\n}\n", 0,
                     "result in [100, 109]", "result_0 in [0, 18]", ", 0 differences")

    def test_two_outputs_of_one_name(self):
        self.verdict("void f(int32_t *a, int32_t *restrict a_1, int16_t x)\n{\n    a[1] = x;\n"
                     "    *a_1 = x;\n}\n", 3, "it.c:2:", "two outputs would be named a_1")

    def test_a_name_in_its_own_first_value(self):
        self.verdict("/* ranges: x=0..9 */\nint32_t f(int32_t x)\n{\n    if (x > 3) {\n"
                     "        int32_t x = x + 1;\n        return x;\n    }\n    return 0;\n}\n",
                     3, "it.c:6:17: x within its own first value")

    def test_what_is_cast_to_void_is_run(self):
        text = "/* ranges: x=%s */\nint32_t f(int32_t x)\n{\n    (void)(100 / x);\n    (void)x;\n" \
               "    return x;\n}\n"
        self.verdict(text % "0..9", 1, "FALSE it.c:5:12", "division by zero")
        self.verdict(text % "1..9", 0)

    def test_changes_in_a_list_of_first_values(self):
        self.verdict("/* ranges: x=0..9 */\nint32_t f(int32_t x)\n{\n"
                     "    int32_t a[2] = { x++, x };\n    return a[1];\n}\n", 3,
                     "it.c:5:22: x changes in an expression that uses it again")

    def test_ranges_of_an_earlier_function(self):
        self.verdict("/* ranges: a=0..9 */\nint32_t g(int32_t a)\n{\n    return a + 1;\n}\n"
                     "int32_t f(int32_t a)\n{\n    return a + 1;\n}\n", 1, "FALSE it.c:9:12")

    def test_a_condition_after_a_division_by_0(self):
        self.verdict("/* ranges: a=0..5 b=0..5 */\nint32_t f(int32_t a, int32_t b)\n{\n"
                     "    int32_t q = a / b;\n    if (q > 3) return 1;\n    return 0;\n}\n", 1,
                     "FALSE it.c:5:17", ", 0 differences")

    def test_a_place_that_one_path_writes(self):
        self.verdict("/* ranges: p=0..1000 a=0..9 */\nvoid f(int32_t *p, int32_t a)\n{\n"
                     "    if (a > 5) *p = a;\n}\n", 0,
                     "p in [6, 9] (on 1 of 2 paths; on the others it isn't written)")

    def test_a_step_of_joined_ways(self):
        found, lines, _ = self.c("/* ranges: a=0..9 b=0..9 */\nint32_t f(int32_t a, int32_t b)\n"
                                 "{\n    return (b > 3 ? a + 1 : a + 1) % 7;\n}\n", "--join",
                                 "--test", "20")
        self.assertEqual(found, 0, lines)
        self.assertIn("result in [0, 6]", flat(lines))


class Refusals(Case):
    """What isn't served, with its place in the user's file."""

    TEXTS = (
        ("float f(int32_t a)\n{\n    return a;\n}\n", "it.c:2:7", "the type float"),
        ("int32_t f(int32_t a, int32_t b)\n{\n    return a ^ b;\n}\n", "it.c:4:12", "overlap"),
        ("int32_t f(int32_t a)\n{\n    return g(a);\n}\n", "it.c:4:12", "a call of g"),
        ("int32_t f(int32_t a)\n{\n    int32_t b;\n    return a + b;\n}\n", "it.c:5:16",
         "no value"),
        ("static int32_t g(int32_t a)\n{\n    return a ^ 5;\n}\nint32_t f(int32_t a)\n{\n"
         "    {{{ a = g(a); }}}\n    return a;\n}\n", "it.c:4:12", "overlap"),
        ("#define TWICE(x) ((x) * 2 + y)\nint32_t f(int32_t a)\n{\n    return 1 + TWICE(a);\n}\n",
         "it.c:5:16", "y isn't known"),
        ("void f(int16_t *a, uint16_t *b)\n{\n    a[0] = (int16_t)b[1];\n}\n", "it.c:2:29",
         "may be the same place"),
        ("struct s { int32_t x; };\nvoid f(struct s *s, int32_t *p)\n{\n    s->x = *p;\n}\n",
         "it.c:3:29", "may be the same place"),
        ("int32_t f(int32_t a)\n{\n    return a + a++;\n}\n", "it.c:4:16", "uses it again"),
        ("static int32_t n;\nstatic int32_t g(void) { n += 1; return n; }\n"
         "int32_t f(void) // ranges: n=0..9\n{\n"
         "    return g() - g();\n}\n", "it.c:6:12", "make it a statement"),
        ("int32_t f(int32_t a)\n{\nagain:\n    if (a > 3) { a -= 3; goto again; }\n    return "
         "a;\n}\n",
         "it.c:4:1", "Label"),
        ("int32_t f(volatile int32_t *a)\n{\n    return *a;\n}\n", "it.c:2:20", "volatile"),
        ("int32_t f(char a)\n{\n    return a;\n}\n", "it.c:2:16", "plain char"),
        ("int32_t f(int32_t a)\n{\n    return f(a);\n}\n", "it.c:4:12", "calls of f"),
        ("int32_t f(int32_t a)\n{\n    int32_t t[2] = { 1, 2 };\n    return t[2] + a;\n}\n",
         "it.c:5:12", "is past"),
        ("int32_t f(int32_t a)\n{\n    return a <<;\n}\n", "it.c:4:16", "isn't C"),
        ("#include \"none.h\"\nint32_t f(int32_t a)\n{\n    return a;\n}\n", "it.c:2:10",
         "no header none.h"),
        ("int32_t f(int32_t a)\n{\n    if (a > 3)\n        return 1;\n}\n", "it.c:2:9",
         "without a value"),
        ("/* ranges: a=3..1 */\nint32_t f(int32_t a)\n{\n    return a;\n}\n", "it.c:3:",
         "is empty"),
        ("/* ranges: a=0..70000 */\nint32_t f(int16_t a)\n{\n    return a;\n}\n", "it.c:3:19",
         "isn't within its type"),
        ("static int32_t n;\nint32_t f(int32_t a)\n{\n    return a / 2 + n;\n}\n", "it.c:5:20",
         "give its range"),
        ("_Bool f(int32_t a)\n{\n    return a;\n}\n", "it.c:2:", "_Bool"),
        ("int32_t f(int32_t a)\n{\n    return __SSAT(a, a);\n}\n", "it.c:4:12",
         "within the helper"),
        # each of these was once served, and with another meaning than C's
        ("int32_t f(uint8_t x)\n{\n    return (x >= 0 ? x : 1.5) / 2 * 2;\n}\n", "it.c:4:26",
         "the constant 1.5"),
        ("int32_t f(void)\n{\n    return (int32_t)sizeof(\"abcdef\");\n}\n",
         "it.c:4:28", "isn't served"),
        ("int32_t f(int32_t a)\n{\n    int32_t x = 5;\n    { int32_t x = x + 1; a = x; }\n"
         "    return a;\n}\n", "it.c:5:15", "within its own first value"),
        ("int32_t f(void)\n{\n    int32_t x = 3, *p = &x;\n    *p = (x = 5) + 1;\n    return x;"
         "\n}\n", "it.c:5:11", "a call or a pointer may use it"),
        ("static int32_t g(int32_t *q) { return *q; }\nint32_t f(void)\n{\n"
         "    int32_t x = 3, *p = &x;\n    return x++ + g(p);\n}\n", "it.c:6:12",
         "a call or a pointer may use it"),
        ("int32_t f(void)\n{\n    int32_t y = 1, *p = &y;\n    for (;;) {\n        int32_t x = 5;"
         "\n        p = &x;\n        break;\n    }\n    return *p;\n}\n", "it.c:10:13",
         "has no value yet"),
        ("struct s { int32_t v; };\nint32_t f(const struct s *a, const struct s *b, int32_t x)\n{\n"
         "    const struct s *p = a;\n    x = x > 2 ? (p = b)->v : 0;\n    return p->v / 2;\n}\n",
         "it.c:6:18", "make it a statement"),
        ("static void g(int32_t *restrict x, int32_t *y)\n{\n    *x = 1;\n    *y = 2;\n}\n"
         "int32_t f(int32_t a)\n{\n    g(&a, &a);\n    return a;\n}\n", "it.c:9:5",
         "x is restrict"),
        ("int32_t f(int32_t *a)\n{\n    int32_t *restrict p = a, *q = a;\n    *p = 1;\n"
         "    return *q;\n}\n", "it.c:3:1", "p is restrict"),
        ("int32_t f(int32_t a)\n{\n    int32_t t[1 + (-2147483647 - 1) % -1];\n    t[0] = a;\n"
         "    return t[0];\n}\n", "it.c:4:21", "leaves its type"),
        ("const int32_t N = 8;\nint32_t f(void)\n{\n    const int32_t N = 4;\n"
         "    static int32_t s = N;\n    s = N;\n    return s;\n}\n", "it.c:6:20",
         "isn't constant"),
        ("typedef int half __attribute__((unused, mode(HI)));\nint32_t f(half a)\n{\n"
         "    return a;\n}\n", "it.c:2:18", "the attribute mode"),
        ("int32_t f(int32_t *volatile p)\n{\n    return *p;\n}\n", "it.c:2:", "volatile"),
        ("#pragma GCC optimize(2)\nint32_t f(int32_t a)\n{\n    return a * 1.5;\n}\n",
         "it.c:5:16", "the constant 1.5"),
        ("int32_t f(int32_t a)\n{\n    return a << -1;\n}\n", "it.c:4:12", "a shift by"),
        ("int32_t f(int32_t a)\n{\n    return a >> 32;\n}\n", "it.c:4:12", "a shift by"),
        ("int32_t f(int32_t n)\n{\n    int32_t t[n];\n    return t[0];\n}\n", "it.c:4:13",
         "isn't a constant"),
        ("int32_t f(int32_t a)\n{\n    return *(int16_t *)&a;\n}\n", "it.c:4:13",
         "a cast of a pointer"),
        ("struct s { int32_t a : 5; };\nint32_t f(struct s *p)\n{\n    return p->a;\n}\n",
         "it.c:2:20", "a field of bits"),
        ("enum e { A };\nint32_t f(enum e a)\n{\n    return a;\n}\n", "it.c:3:18",
         "isn't an integer's"),
        ("union u { int32_t a; };\nint32_t f(union u *p)\n{\n    return p->a;\n}\n", "it.c:3:",
         "isn't an integer's"))

    def test_served_with_restrict(self):
        """Two restrict pointers into one array, on different elements or both only read."""
        status, lines, _ = self.c(
            "static int32_t g(const int16_t *restrict x, const int16_t *restrict y)\n{\n"
            "    return *x * *y;\n}\nstatic void h(int16_t *restrict x, int16_t *restrict y)\n{\n"
            "    *x++ = 3;\n    *x = *y;\n}\n"
            "/* ranges: a=-9..9 */\nint32_t f(int16_t a) __attribute__((noinline));\n"
            "int32_t f(int16_t a)\n{\n    int16_t t[3] = { a, 2, 5 };\n    h(t, t + 2);\n"
            "    return g(t, t) + t[1] + a;\n}\n", "--test", "5")
        self.assertEqual(status, 0, lines)
        self.assertIn("result in [5, 23]", flat(lines))
        self.assertIn(", 0 differences", flat(lines))

    def test_refused(self):
        for text, place, what in self.TEXTS:
            with self.subTest(what=what):
                status, lines, _ = self.c(text)
                self.assertEqual(status, 3, lines)
                self.assertIn(what, lines[0])
                self.assertIn("refused: ", lines[0])
                self.assertIn(place, lines[0])

    def test_words(self):
        name = self.file("int f(int a) { return a; }\n")
        for words, what in (([os.path.join(self.folder, "none.c")], "none.c: No such file"),
                            ([name, "g"], "no function g"), ([name, "--rang", "a=1..2"], "--help"),
                            ([name, "--range", "a=1"], "isn't of the form"),
                            ([name, "--range", "a=__import__('os')..2"], "isn't of the form"),
                            ([name, "--unit", "x"], "--help"), ([], "--help")):
            status, lines, said = ran(*words)
            self.assertIn(status, (2, 3))
            self.assertIn(what, said + "".join(lines))
            self.assertLessEqual(len((said + "".join(lines)).splitlines()), 1)
        self.assertEqual(ran("--help")[0], 0)


class Kept(Case):
    """--out and --json."""

    def test_out(self):
        out = os.path.join(self.folder, "out")
        file = os.path.join(ROUTINES, "soft_clip.c")
        name = os.path.join(self.folder, "it.json")
        status, lines, _ = ran(file, "--out", out, "--json", name, *QUICK)
        self.assertEqual(status, 0, lines)
        done = subprocess.run([PROGRAM, "batch", "soft_clip_list", "--rounds", "64"], cwd=out,
                              stdout=subprocess.PIPE, universal_newlines=True, check=False)
        self.assertEqual(done.returncode, 0, done.stdout)
        self.assertNotIn("assumed", done.stdout)
        with open(os.path.join(out, "soft_clip_list"), encoding="ascii") as it:
            names = it.read().split()
        self.assertEqual(done.stdout.count("script "), len(names))
        self.assertGreaterEqual(len(names), 5)
        with open(name, encoding="ascii") as it:
            record = json.load(it)
        self.assertEqual((record["word"], record["function"], record["paths"]),
                         ("proved", "soft_clip", 3))
        error = record["outputs"][0]["error"]["low"]
        self.assertEqual(Fraction(int(error["m"])) * Fraction(2) ** error["e"],
                         Fraction(-65535, 65536))
        self.assertIn(record["rests_on"], lines[-1])

    def test_not_proved(self):
        name = os.path.join(self.folder, "it.json")
        status, _, _ = ran(os.path.join(ROUTINES, "abs_q15.c"), "--json", name, *QUICK)
        self.assertEqual(status, 1)
        with open(name, encoding="ascii") as it:
            record = json.load(it)
        row, = record["unproved"]
        self.assertEqual((row["word"], row["point"], row["value"], row["place"]),
                         ("false", {"x": -32768}, "32768", "abs_q15.c:6:22"))


# Faults of the translator that can make a claim false: a file, its text, the fault, and a routine
# by which the test finds it (of c_routines, or a text).
SIGNED = "/* ranges: a=-99..99 b=1..9 */\nint32_t f(int32_t a, int32_t b)\n{\n    return %s;\n}\n"
WIDE = SIGNED.replace("-99..99", "0..70000").replace("1..9", "1..70000") % "(a * b) >> 8"
MUTANTS = (
    ("c_scripts.py", '"int<%s>(%s)" % (a[2], inner)', '"int<zr>(%s)" % inner', SIGNED % "a >> 2"),
    ("c_scripts.py", '"int<zr>(%s)" % inner if node.op', '"int<dn>(%s)" % inner if node.op',
     SIGNED % "a / b"),
    ("c_scripts.py", "- 1b{1} * int<dn>({0} * 1b-{1})", "- 1b{1} * int<zr>({0} * 1b-{1})",
     SIGNED % "a & 7"),
    ("c_run.py", "half.const == 1 << by - 1:", "half.const in (1 << by - 1, 1 << by):",
     SIGNED % "(a + 8) >> 3"),
    ("c_types.py", "key=lambda k: (k[0], not k[1]))", "key=lambda k: (k[0], k[1]))",
     SIGNED.replace("int32_t b", "uint32_t b") % "a / b"),
    ("c_types.py", "    return max(a if", "    return (64, True)\n    return max(a if",
     WIDE),
    ("c_nodes.py", '">": ((">",), ("<=",))', '">": ((">",), ("<",))', SIGNED % "a > 5 ? b : a"),
    ("c_nodes.py", '"<=": (("<=",), (">",))', '"<=": (("<",), (">",))', SIGNED % "a <= 5 ? b : a"),
    ("c_paths.py", "return pick in WAYS[op][0]", 'return (pick in WAYS[op][0]) != (op == "!=")',
     SIGNED % "a != 5 ? b : a"),
    ("c_paths.py", 'self.goal(v.node, low, high, where, "conversion to " + named(kind))', "pass",
     SIGNED % "(uint8_t)a"),
    ("c_paths.py", "self.goal(node, *span(kind), where, named(kind))\n", "pass\n", WIDE),
    ("c_paths.py", '"low", (node, kind[0])', '"low", (node, kind[0] - 1)',
     "uint32_t f(uint32_t a, uint32_t b)\n{\n    return a * b;  // wraps\n}\n"),
    ("c_paths.py", '"sub", (node, lit(low)), EXACT', '"add", (node, lit(low + 1)), EXACT',
     "int32_t f(uint32_t a, uint32_t b)\n{\n    return (int32_t)(a - b);  // wraps\n}\n"),
    ("c_paths.py", "min(some), max(some), kind", "max(some), max(some), kind", "ntc_interp"),
    ("c_run.py", "side = e.iftrue if self.truth", "side = e.iffalse if self.truth",
     SIGNED % "a > 5 ? b : a"),
    ("c_run.py", 'a.node, -by, "dn"', 'a.node, -by - 1, "dn"', SIGNED % "a * 8 << 1"),
    ("c_run.py", 'return left if left == (e.op == "||")', 'return left if left == (e.op == "&&")',
     SIGNED % "a > 5 && b > 3 ? b : a"),
    ("c_run.py", "least = 0 if low >= 0", "least = 0 if low", SIGNED % "a % 7"),
    ("c_run.py", "free = min(zeros(x), kind[0] - 1)", "free = min(zeros(x) + 1, kind[0] - 1)",
     SIGNED % "(a << 3) | b"),
    ("c_paths.py", '[(b.conds, v.node) for b, v, _ in some]',
     '[(b.conds, some[0][1].node) for b, v, _ in some]', SIGNED % "a > 5 ? b : a"),
    ("c_paths.py", '(("==", new), ("<", old), (">", old))', '(("==", old), ("<", new), (">", new))',
     "/* ranges: a[3]=0..9 k=0..2 */\nvoid f(int32_t *a, int16_t k)\n{\n    a[k] = 7;\n}\n"),
    ("c_places.py", "Pointer(self.thing, self.sel + by,", "Pointer(self.thing, self.sel + 2 * by,",
     "/* ranges: a[5]=0..9 */\nint32_t f(int32_t *a)\n{\n    a++;\n    return *a;\n}\n"),
    ("c_statements.py", "for item in some[taken:]:", "for item in some[taken:taken + 1]:",
     "/* ranges: a=0..3 */\nint32_t f(int32_t a)\n{\n    int32_t r = 1;\n    switch (a) {\n"
     "    case 1: r = 2;\n    case 2: r += 5;\n    }\n    return r;\n}\n"),
    ("c_nodes.py", "a + ((1 << k - 1) if way", "a + ((1 << k) if way", SIGNED % "(a + 4) >> 3"))


class Faults(Case):
    """Each planted fault makes the test fail, or a run end with a fault."""

    def test_faults(self):
        copy = os.path.join(self.folder, "tools")
        os.mkdir(copy)
        for name in os.listdir(TOOLS):
            if name.endswith(".py") or name == "from_c":
                shutil.copy(os.path.join(TOOLS, name), copy)
        for file, old, new, routine in MUTANTS:
            with self.subTest(file=file, fault=new):
                self.planted(copy, file, old, new, routine)

    def planted(self, copy, file, old, new, routine):
        with open(os.path.join(TOOLS, file), encoding="ascii") as it:
            text = it.read()
        self.assertEqual(text.count(old), 1, "the place of a fault")
        with open(os.path.join(copy, file), "w", encoding="ascii") as it:
            it.write(text.replace(old, new))
        name = os.path.join(ROUTINES, routine + ".c") if "\n" not in routine else \
            self.file("#include <stdint.h>\n" + routine)
        words = [sys.executable, os.path.join(copy, "from_c"), name, "--program", PROGRAM, "--test",
                 "60", "--reach", "0.01", "--narrow", "0", "--seconds", "0.3"]
        more = ["--join"] if "some[0][1]" in new else []
        done = subprocess.run(words + more, stdout=subprocess.PIPE, stderr=subprocess.STDOUT,
                              universal_newlines=True, check=False)
        shutil.copy(os.path.join(TOOLS, file), copy)
        self.assertNotIn("Traceback", done.stdout)
        self.assertEqual(done.returncode, 2, done.stdout)


if __name__ == "__main__":
    unittest.main()
