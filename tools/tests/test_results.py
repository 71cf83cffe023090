"""tools/results: its JSON against the schema of docs/RESULTS.md, JUnit, HTML, statuses, errors."""

import contextlib
import importlib.machinery
import importlib.util
import io
import json
import os
import re
import subprocess
import sys
import tempfile
import unittest
import xml.etree.ElementTree as xml
from fractions import Fraction

TOP = os.path.dirname(os.path.dirname(os.path.dirname(os.path.abspath(__file__))))
TOOLS = os.path.join(TOP, "tools")
PROGRAM = os.path.abspath(os.environ.get("FIXPROVE") or
                          os.path.join(TOP, "crates", "fx_main", "out", "fx_main"))
sys.path.insert(0, TOOLS)
import assistants  # noqa: E402
import results_files  # noqa: E402
import results_model as model  # noqa: E402

sys.dont_write_bytecode = True
LOADER = importlib.machinery.SourceFileLoader("results_tool", os.path.join(TOOLS, "results"))
results = importlib.util.module_from_spec(importlib.util.spec_from_loader("results_tool", LOADER))
LOADER.exec_module(results)

PRODUCT = "{ x in [1,2] /\\ y in [3,5] -> x * y in ? }"
ASKED = ("{ x in [0,1] -> x in [-0.1,0x1.8p1] /\\ x <= +1.5e0 /\\ x >= -3b1"
         " /\\ x + 1 -/ 1 in [-0.5,9]}")
ASSUMED = "{ x in [0,1] -> y in ? } y -> x + 1;"
OPEN = "{ x in [1,2] \\/ x in [-1,1] -> x in ? /\\ 1 / x in ? /\\ x <= 3 } $ x;"


def schema():
    """The schema of the page."""
    with open(os.path.join(TOP, "docs", "RESULTS.md"), encoding="utf-8") as page:
        return json.loads(page.read().split("```json\n")[1].split("```")[0])


def faults(value, rule, whole, at="$"):
    """Where a value isn't as a schema says, for what the page's schema uses."""
    if "$ref" in rule:
        return faults(value, whole["definitions"][rule["$ref"].rpartition("/")[2]], whole, at)
    if "anyOf" in rule:
        every = [faults(value, it, whole, at) for it in rule["anyOf"]]
        return [] if [] in every else ["%s: none of %d forms: %s" % (at, len(every), every)]
    found = []
    if "const" in rule and value != rule["const"]:
        found.append("%s: %r" % (at, value))
    if "enum" in rule and not any(value is it or value == it and type(value) is type(it)
                                  for it in rule["enum"]):
        found.append("%s: %r isn't in %r" % (at, value, rule["enum"]))
    kinds = {"object": dict, "array": list, "string": str, "integer": int, "boolean": bool,
             "null": type(None)}
    wanted = rule.get("type", [])
    wanted = [wanted] if isinstance(wanted, str) else wanted
    if wanted and type(value) not in [kinds[it] for it in wanted]:
        found.append("%s: %r is no %s" % (at, value, wanted))
    if "pattern" in rule and isinstance(value, str) and not re.search(rule["pattern"], value):
        found.append("%s: %r" % (at, value))
    if isinstance(value, list):
        for number, it in enumerate(value):
            found += faults(it, rule.get("items", {}), whole, "%s[%d]" % (at, number))
    if isinstance(value, dict):
        found += ["%s: no %s" % (at, it) for it in rule.get("required", []) if it not in value]
        for key, it in value.items():
            inner = rule.get("properties", {}).get(key, rule.get("additionalProperties", {}))
            if inner is False:
                found.append("%s: %s is too much" % (at, key))
            else:
                found += faults(it, inner, whole, "%s.%s" % (at, key))
    return found


class Case(unittest.TestCase):
    """A folder of its own for each test."""

    def setUp(self):
        self.room = tempfile.TemporaryDirectory()
        self.addCleanup(self.room.cleanup)
        self.schema = schema()

    def made(self, name, text):
        with open(os.path.join(self.room.name, name), "wb") as file:
            file.write(text if isinstance(text, bytes) else text.encode())
        return name

    def run_tool(self, *words):
        """Status, output and errors of the tool, in this process and the test's folder."""
        out, err = io.TextIOWrapper(io.BytesIO(), write_through=True), io.StringIO()
        before = os.getcwd(), sys.argv
        os.chdir(self.room.name)
        sys.argv = [os.path.join(TOOLS, "results"), *words, "--program", PROGRAM]
        try:
            with contextlib.redirect_stdout(out), contextlib.redirect_stderr(err):
                assistants.ran(results.main)
        except SystemExit as ended:
            return ended.code, out.buffer.getvalue().decode(), err.getvalue()
        finally:
            os.chdir(before[0])
            sys.argv = before[1]

    def report(self, status, *words):
        """The JSON of a run with this status, held against the schema."""
        found = self.run_tool(*words, "--json", "-")
        self.assertEqual(found[0], status, found)
        report = json.loads(found[1])
        self.assertEqual(faults(report, self.schema, self.schema), [])
        self.assertEqual(report["exit"], status)
        return report


class Json(Case):
    def test_ends_are_those_of_the_line(self):
        report = self.report(0, "prove", self.made("a.fx", PRODUCT))
        goal = report["scripts"][0]["goals"][0]
        self.assertEqual(goal["text"], "x * y")
        self.assertEqual((goal["ask"], goal["asked"], goal["outcome"]), ("in ?", None, "proved"))
        high = {"m": "5", "e": 1, "base": 2, "text": "5b1", "decimal": "10", "direction": "exact"}
        self.assertEqual(goal["found"]["high"], high)
        self.assertEqual(report["scripts"][0]["sha256"], model.sha256(PRODUCT.encode()))
        self.assertEqual(report["options"]["rounds"], 20)

    def test_asked_bounds_are_exact(self):
        goals = self.report(0, "prove", self.made("a.fx", ASKED))["scripts"][0]["goals"]
        ends = [goal["asked"][end] for goal in goals for end in ("low", "high")]
        pairs = [(it["m"], it["e"], it["base"]) if isinstance(it, dict) else it for it in ends]
        self.assertEqual(pairs, [("-1", -1, 10), ("24", -3, 2), "-inf", ("15", -1, 10),
                                 ("-3", 1, 2), "+inf", ("-5", -1, 10), ("9", 0, 2)])
        self.assertEqual(goals[3]["text"], "x + 1 -/ 1")

    def test_decimals_lie_outside(self):
        for text in ("-32767b-30", "0x7fffffff", "1152921504606846975b-60", "0.1", "1b-512"):
            exact = model.end_of(text, False, 60)
            for is_upper in (False, True):
                end = model.end_of(text, is_upper, 4)
                near, value = Fraction(end["decimal"]), Fraction(exact["m"]) * \
                    Fraction(exact["base"]) ** exact["e"]
                self.assertTrue(near >= value if is_upper else near <= value, end)
                word = "exact" if near == value else "up" if is_upper else "down"
                self.assertEqual(end["direction"], word)

    def test_an_assumed_hint_is_a_failure(self):
        name = self.made("a.fx", ASSUMED)
        row = self.report(1, "prove", name)["scripts"][0]
        self.assertEqual((row["status"], row["word"]), (0, "assumed"))
        self.assertEqual(row["assumed"], [{"number": 1, "text": "y -> x + 1"}])
        self.assertEqual(row["goals"][0]["outcome"], "assumed")
        self.report(0, "prove", name, "--allow-assumed")

    def test_the_open_box(self):
        row = self.report(1, "prove", self.made("a.fx", OPEN))["scripts"][0]
        self.assertEqual((row["open"]["goal"], row["open"]["case"]), (2, 2))
        self.assertEqual(list(row["open"]["box"]), ["x"])
        self.assertEqual([it["outcome"] for it in row["goals"]], ["unknown", "open", "unknown"])

    def test_other_answers(self):
        row = self.report(3, "prove", self.made("a.fx", "{ x in [2,1] -> x in ? }"))["scripts"][0]
        self.assertEqual((row["word"], row["goals"]), ("refused", []))
        self.assertEqual(self.report(6, "prove", "none.fx")["scripts"][0]["sha256"], None)
        cut = self.made("b.fx", "{ x in [0,1] -> x in ? } $ x in 8;")
        row = self.report(4, "prove", cut, "--boxes", "2")["scripts"][0]
        self.assertEqual((row["word"], row["goals"][0]["outcome"]), ("limit", "unknown"))
        row = self.report(0, "prove", self.made("c.fx", "{ x in [0,1] /\\ x in [2,3] -> x in ? }"))
        self.assertEqual(row["scripts"][0]["goals"][0]["found"], "empty")

    def test_check(self):
        name = self.made("a.fx", PRODUCT)
        row = self.report(0, "prove", name, "--cert", "c")["scripts"][0]
        again = self.report(0, "check", name, "c")["scripts"][0]
        self.assertEqual(again["word"], "accepted")
        self.assertEqual(again["certificate"], row["certificate"])
        self.assertEqual(again["goals"], row["goals"])
        with open(os.path.join(self.room.name, "c"), "ab") as file:
            file.write(b"more")
        self.assertEqual(self.report(5, "check", name, "c")["scripts"][0]["word"], "certificate")

    def test_batch_is_prove_script_by_script(self):
        texts = {"a.fx": PRODUCT, "b.fx": "{ x in [2,1] -> x in ? }", "c.fx": ASSUMED,
                 "d.fx": OPEN, "e.fx": "{ script in [0,1] -> script in ? /\\ script <= 1 }",
                 "script in [0, 1]": ASKED}
        names = [self.made(name, text) for name, text in texts.items()]
        listed = self.made("list", "".join(it + "\n" for it in names))
        rows = self.report(3, "batch", listed)["scripts"]
        for name, row in zip(names, rows):
            alone = json.loads(self.run_tool("prove", name, "--json", "-")[1])["scripts"][0]
            del alone["certificate"]
            self.assertEqual(row, alone)
        self.report(1, "batch", self.made("list", "a.fx\nc.fx\n"))
        self.assertEqual(self.report(12, "batch", self.made("list", "\n"))["list"]["name"], "list")


class Others(Case):
    def test_junit(self):
        root = xml.fromstring(self.run_tool("prove", self.made("a.fx", OPEN), "--junit", "-")[1])
        self.assertEqual([it.get("name") for it in root.iter("testcase")],
                         ["goal 1: x in ?", "goal 2: 1 / x in ?", "goal 3: x <= 3"])
        self.assertEqual((root.get("tests"), root.get("failures"), root.get("skipped")),
                         ("3", "1", "2"))
        root = xml.fromstring(self.run_tool("prove", self.made("a.fx", PRODUCT), "--junit", "-")[1])
        self.assertIn("found: [3, 5b1]", root.find(".//system-out").text)
        name = self.made("a.fx", ASSUMED)
        for words, failures in (((), "1"), (("--allow-assumed",), "0")):
            root = xml.fromstring(self.run_tool("prove", name, "--junit", "-", *words)[1])
            self.assertEqual(root.get("failures"), failures)
        root = xml.fromstring(self.run_tool("prove", "none", "--junit", "-")[1])
        self.assertEqual(root.find(".//error").get("type"), "unread")

    def test_names_that_xml_cannot_hold(self):
        row = model.script_result(b"a\x01\xff<&>", b"", 3, ["script: Unexpected at 0"])
        report = model.report("prove", {}, {}, 3, [row], False)
        root = xml.fromstring(results_files.junit_bytes(report))
        self.assertEqual(root[0].get("name"), "a\\x01\\xff<&>")

    def test_html(self):
        try:
            import jinja2  # noqa: F401
        except ImportError:
            found = self.run_tool("prove", self.made("a.fx", PRODUCT), "--html", "-")
            self.assertEqual((found[0], found[1]), (2, ""))
            self.assertIn("apt-get install python3-jinja2", found[2])
            return
        text = "# <script>alert(1)</script>\n" + ASSUMED
        page = self.run_tool("prove", self.made("<b>.fx", text), "--html", "-")[1]
        self.assertNotIn("<script>", page)
        self.assertNotIn("<b>", page)
        self.assertIn("&lt;script&gt;alert(1)", page)
        self.assertIn("[1, 1b1]", page)
        self.assertIn("[=1, =2]", page)
        self.assertIn("Hint 1 is assumed", page)

    def test_the_lines_are_printed(self):
        words = ["prove", self.made("a.fx", PRODUCT), "--json", "j", "--program", PROGRAM]
        done = subprocess.run([sys.executable, "-B", os.path.join(TOOLS, "results"), *words],
                              cwd=self.room.name, stdout=subprocess.PIPE, check=False)
        self.assertEqual((done.returncode, done.stdout), (0, b"x * y in [3, 5b1]\n"))
        self.assertTrue(os.path.isfile(os.path.join(self.room.name, "j")))

    def test_errors_are_one_line_and_lose_nothing(self):
        name = self.made("a.fx", PRODUCT)
        self.made("list", "a.fx\n")
        wrong = [("prove",), ("prove", name, name), ("at", name), ("check", name, "--rounds", "3"),
                 ("prove", name, "--json", name), ("prove", name, "--json", "no/j"),
                 ("prove", name, "--json", "."), ("prove", name, "--json", "j", "--junit", "j"),
                 ("batch", "list", "--html", "a.fx"), ("prove", name, "--rounds", "65"),
                 ("prove", name, "--cert", "c", "--json", "c"), ("prove", name, "--digits", "0")]
        for words in wrong:
            found = self.run_tool(*words)
            self.assertEqual((found[0], found[1]), (2, ""), words)
            self.assertEqual(found[2].count("\n"), 1, found)
            self.assertTrue(found[2].startswith("results: "), found)
        self.assertEqual(sorted(os.listdir(self.room.name)), ["a.fx", "list"])
        with open(os.path.join(self.room.name, name), encoding="utf-8") as file:
            self.assertEqual(file.read(), PRODUCT)


if __name__ == "__main__":
    unittest.main()
