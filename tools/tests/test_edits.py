"""tools/edits.py over a small repository and a stand-in for `rt`: nothing is proved here."""

import contextlib
import io
import json
import os
import shutil
import subprocess
import sys
import tempfile
import unittest
from unittest import mock

TOOLS = os.path.dirname(os.path.dirname(os.path.abspath(__file__)))
sys.path.insert(0, TOOLS)
import edits as tool  # noqa: E402

BODY = "fn low() -> u8 {\n    1\n}\n\nfn high() -> u8 {\n    2\n}\n"
FILES = {
    "crates.txt": "one:\ntwo: one\n",
    "HANDLES": "Handles allowed: none.\n",
    "crates/one/src/lib.rt": BODY,
    "crates/one/must-fail/gate_edit.edit": "file: src/lib.rt\nold: 2\nnew: 3\n",
    "crates/two/src/lib.rt": BODY,
    "edits/one/high_is_low.edit": "file: src/lib.rt\nold: 2\nnew: 1\n",
    "edits/one/low_is_high.edit": "file: src/lib.rt\nold: 1\nnew: 2\n",
    "edits/two/no_text.edit": "file: src/lib.rt\nold: 7\nnew: 8\n",
}
# stands in for `rt`: writes down its words and the edits that it finds, and says what SAID has
STAND_IN = """#!{python}
import json, os, sys
with open(os.environ["SAID"], encoding="utf-8") as file:
    said = json.load(file)
if sys.argv[1] == "check":
    with open("src/lib.rt", encoding="utf-8") as file:
        text = file.read()
    with open(os.environ["LOG"], "a", encoding="utf-8") as file:
        file.write(json.dumps([sys.argv[1:], text]) + "\\n")
    print(said["check"])
    sys.exit(1)
folder = f"crates/{{sys.argv[2]}}/must-fail"
there = sorted(os.listdir(folder))
with open(os.environ["LOG"], "a", encoding="utf-8") as file:
    file.write(json.dumps([sys.argv[1:], there]) + "\\n")
print("rt: a note")
for name in there:
    if name in said:
        print(f"rt: must-fail {{sys.argv[2]}}/{{name}}: {{said[name]}}")
print("rt: one more note")
"""
REFUSED = "refused, as it must be: src/lib.rt:1:1: error: the goal fails"


class Case(unittest.TestCase):
    """A repository in a folder of its own, beside which nothing may be left."""

    def setUp(self):
        room = tempfile.TemporaryDirectory()
        self.addCleanup(room.cleanup)
        self.room, self.top = room.name, os.path.join(room.name, "repository")
        for name, text in FILES.items():
            self.made(os.path.join("repository", name), text)
        for name in ("edits.py", "minutes.py"):
            os.makedirs(os.path.join(self.top, "tools"), exist_ok=True)
            shutil.copy(os.path.join(TOOLS, name), os.path.join(self.top, "tools"))
        os.chmod(self.made("bin/rt", STAND_IN.format(python=sys.executable)), 0o755)

    def made(self, name, text):
        """The path of a file of this text in the test's folder."""
        path = os.path.join(self.room, name)
        os.makedirs(os.path.dirname(path), exist_ok=True)
        with open(path, "w", encoding="utf-8") as file:
            file.write(text)
        return path

    def run_tool(self, *words, said):
        """Status, lines of both outputs, and for each call of `rt` its words and the edits."""
        log = os.path.join(self.room, "log")
        env = {
            **os.environ,
            "PATH": os.path.join(self.room, "bin") + os.pathsep + os.environ["PATH"],
            "SAID": self.made("said", json.dumps(said)),
            "LOG": log,
        }
        tool_words = [sys.executable, "-B", os.path.join(self.top, "tools", "edits.py"), *words]
        done = subprocess.run(tool_words, env=env, check=False, text=True, stdin=subprocess.DEVNULL,
                              stdout=subprocess.PIPE, stderr=subprocess.PIPE)
        calls = []
        if os.path.exists(log):
            with open(log, encoding="utf-8") as file:
                calls = [json.loads(line) for line in file]
            os.unlink(log)
        return done.returncode, done.stdout.splitlines(), done.stderr.splitlines(), calls

    def test_edits_of_a_crate(self):
        said = {
            "high_is_low.edit": REFUSED,
            "low_is_high.edit": "refused, as it must be (only by a limit of the prover): stopped",
        }
        status, lines, errors, calls = self.run_tool("one", said=said)
        self.assertEqual(status, 0)
        self.assertEqual(lines, [
            "refused           -  one/high_is_low: src/lib.rt:1:1: error: the goal fails",
            "by a limit        -  one/low_is_high",
            "2 edits: 2 refused (1 of them only by a limit), 0 not refused, 0 bad, 0 not tried; "
            "0 s, and 0 s of the crates as they stand",
        ])
        self.assertEqual(errors, ["one: trying 2", "rt: a note", "rt: one more note"])
        self.assertEqual(calls, [
            [["must-fail", "one"], ["high_is_low.edit", "low_is_high.edit"]]
        ])

    def test_all_edits_and_what_is_not_refused(self):
        said = {
            "high_is_low.edit": "NOT REFUSED: the crate is still proved with this edit",
            "no_text.edit": "BAD EDIT: it did not reach the prover\nfirst\nsecond",
        }
        status, lines, _, calls = self.run_tool("--anew", said=said)
        self.assertEqual(status, 1)
        self.assertEqual(lines[:5], [
            "NOT REFUSED       -  one/high_is_low: the crate is still proved with this edit",
            "NOT TRIED         -  one/low_is_high: "
            "rt must-fail ended with status 0 and says nothing of it",
            "BAD               -  two/no_text: it did not reach the prover",
            "    first",
            "    second",
        ])
        self.assertIn("3 edits: 0 refused, 1 not refused, 1 bad, 1 not tried;", lines[5])
        self.assertEqual([words for words, _ in calls],
                         [["must-fail", "one", "--anew"], ["must-fail", "two", "--anew"]])

    def test_one_edit(self):
        for word, edit in (("one/low_is_high", "low_is_high.edit"),
                           ("one/low_is_high.edit", "low_is_high.edit"),
                           ("one/gate_edit", "gate_edit.edit")):
            status, lines, _, calls = self.run_tool(word, said={edit: REFUSED})
            self.assertEqual(status, 0, word)
            self.assertEqual(len(lines), 2, word)
            self.assertEqual(calls, [[["must-fail", "one"], [edit]]], word)

    def test_by_functions(self):
        said = {"high_is_low.edit": REFUSED, "check": "\n".join([
            "note: src/lib.rt:1:1: it isn't proved (`returns-one`)",
            "fn one::low: no proof: expected answers; `search` did not prove `returns-one`",
            "fn one::high: proved",
        ])}
        status, lines, _, calls = self.run_tool("one", "--functions", said=said)
        self.assertEqual(status, 0)
        self.assertEqual(lines[:2], [
            "refused           -  one/high_is_low: src/lib.rt:1:1: error: the goal fails",
            "refused           -  one/low_is_high: note: src/lib.rt:1:1: it isn't proved "
            "(`returns-one`)",
        ])
        # (the second's old text stands twice after the first)
        self.assertEqual(calls, [
            [["check", "--only", "one::high"], BODY.replace("2", "1")],
            [["check", "--only", "one::low"], BODY.replace("1", "2")],
            [["must-fail", "one"], ["high_is_low.edit"]],
        ])

    def test_what_refuses_a_function(self):
        told = "\n".join([
            "./proofs/a/B/c/Answers.antt:2:1: error: `rw`: no occurrence",
            "./proofs/a/d/Answers.antt:1:1: error: `e` is not in scope",
            "note: ./proofs/a/d/Goals.antt:1:1: was not admitted",
            "fn n::a::B::c: not proved",
            "fn n::a::d: not proved",
            "fn n::f: stopped at the step limit (9)",
            "fn n::i: not proved; it calls `n::a::B::c`, which is not proved",
            "fn n::j: no proof: expected answers in ./proofs/j/Answers.antt",
            "fn n::g: proved",
            "fn n::h: not proved",
        ])
        self.assertEqual(tool.refusals(told, ["B::c", "n::a::d", "n::f", "n::g", "n::i", "n::j"]), {
            "B::c": "./proofs/a/B/c/Answers.antt:2:1: error: `rw`: no occurrence",
            "n::j": "no proof: expected answers in ./proofs/j/Answers.antt",
        })

    def test_the_function_of_a_place(self):
        text = (
            "const A: u8 = 1;\n\nimpl<T> a::Of<b::Xs<T>> for Kind<T> {\n    fn low(&self) -> u8\n"
            "    ensures\n        one: result == 2;\n    {\n        3\n    }\n}\n\ntrait Way {\n"
            "    fn way() -> u8 {\n        4\n    }\n}\n\npub(crate) fn high(\n    a: u8,\n"
            ") -> u8 {\n    5\n}\n\nimpl Kind<u8> {\n    fn new() -> u8 {\n        6\n    }\n}\n"
        )
        wanted = {"1": None, "2": None, "3": "KindOfXs::low", "4": None, "5": "n::m::high",
                  "6": "Kind::new"}
        for word, function in wanted.items():
            place = text.index(f" {word}")
            self.assertEqual(tool.function_at("n", "src/m.rt", text, place), function, word)
        self.assertEqual(tool.function_at("n", "src/lib.rt", text, text.index("5")), "n::high")
        self.assertIsNone(tool.function_at("n", "specs/M.antt", text, text.index("5")))

    def test_no_two_of_a_batch_change_one_function(self):
        crate = os.path.join(self.top, "crates", "one")
        made = [self.made(f"{old}.edit", f"file: src/lib.rt\nold: {old}\nnew: {new}\n")
                for old, new in (("1", "10"), ("{", "("), (" 2", " 20"), ("  1", "  11"))]
        groups = tool.batches(made, "one", crate)
        self.assertEqual([its for _, its in groups], [
            {made[0]: ["one::low"], made[2]: ["one::high"]}, {made[3]: ["one::low"]}
        ])
        both = BODY.replace("1", "10").replace("2", "20")
        self.assertEqual(groups[0][0], {"src/lib.rt": both})

    def test_nothing_changes_and_nothing_is_left(self):
        self.run_tool(said={})
        self.assertEqual(sorted(os.listdir(self.room)), ["bin", "repository", "said"])
        for name, text in FILES.items():
            with open(os.path.join(self.top, name), encoding="utf-8") as file:
                self.assertEqual(file.read(), text, name)
        gate = os.listdir(os.path.join(self.top, "crates", "one", "must-fail"))
        self.assertEqual(gate, ["gate_edit.edit"])
        self.assertFalse(os.path.exists(os.path.join(self.top, "crates", "two", "must-fail")))

    def test_wrong_words(self):
        for word in ("three", "one/no_edit", "two/high_is_low", "--one"):
            status, lines, errors, calls = self.run_tool(word, said={})
            self.assertEqual((status, lines, calls), (2, [], []), word)
            self.assertEqual(len(errors), 1, word)
            self.assertTrue(errors[0].startswith("edits.py: "), word)

    def test_what_an_edit_makes(self):
        crate = os.path.join(self.top, "crates", "one")
        made = tool.edited(os.path.join(self.top, "edits/one/high_is_low.edit"), crate)
        self.assertEqual(made, {"src/lib.rt": BODY.replace("2", "1")})
        for text in ("file: src/lib.rt\nold: fn\nnew: gn\n", "file: src/no.rt\nold: 1\nnew: 2\n",
                     "old: 1\nnew: 2\n", ""):
            self.assertEqual(tool.edited(self.made("odd.edit", text), crate), {}, text)

    def test_seconds_are_those_of_the_edits_checks(self):
        texts = {
            "high_is_low": {"src/lib.rt": BODY.replace("2", "1")},
            "low_is_high": {"src/lib.rt": BODY.replace("1", "2")},
            "bad": {},
        }
        self.made("tmp/rt-edit-1/src/lib.rt", texts["high_is_low"]["src/lib.rt"])
        self.made("tmp/rt-edit-2/src/lib.rt", BODY)
        self.made("other/rt-edit-3/src/lib.rt", texts["low_is_high"]["src/lib.rt"])
        watch = tool.Watch(os.path.join(self.room, "tmp"), texts)
        first, own = (os.path.join(watch.folder, f"rt-edit-{number}") for number in (1, 2))
        other = os.path.join(os.path.realpath(self.room), "other", "rt-edit-3")
        looks = [
            [("a", first, "edits", "one", 1.0), ("b", own, "edits", "one", 2.0)],
            [("a", first, "edits", "one", 3.25), ("c", other, "edits", "one", 9.0)],
            # its folder is gone while it ends
            [("a", first + " (deleted)", "edits", "one", 3.5)],
            [("d", first, "edits", "one", 0.25)],
        ]
        for look in looks:
            with mock.patch.object(tool.minutes, "processes", return_value=look):
                watch.look()
        # 3.5 and 0.25, and half a second for each that may not have been seen
        self.assertEqual(watch.seconds("high_is_low"), 5)
        self.assertEqual(watch.seconds(None), 3)
        self.assertIsNone(watch.seconds("low_is_high"))
        self.assertIsNone(watch.seconds("bad"))

    def test_words_of_the_toolchain(self):
        others = io.StringIO()
        lines = [
            "rt: one: 1 of its 2 must-fail edits were tried\n",
            f"rt: must-fail one/a.edit: {tool.KINDS['by a name']} it)\n",
            "rt: must-fail one/b-2.edit: NOT TRIED: its check ended with status 4\n",
            "what it said\n",
            "rt: FAILED\n",
        ]
        with contextlib.redirect_stdout(others):
            found = tool.records(lines, print)
        self.assertEqual(found["a"][0], "by a name")
        self.assertEqual(found["b-2"], (
            "NOT TRIED", "NOT TRIED: its check ended with status 4\nwhat it said"
        ))
        self.assertEqual(others.getvalue().splitlines(), [lines[0].rstrip(), lines[4].rstrip()])


if __name__ == "__main__":
    unittest.main()
