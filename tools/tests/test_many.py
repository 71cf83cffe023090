"""tools/many: answers are those of prove, kept ones are left out, a stop loses nothing."""

import json
import os
import signal
import subprocess
import sys
import tempfile
import time
import unittest

TOP = os.path.dirname(os.path.dirname(os.path.dirname(os.path.abspath(__file__))))
TOOLS = os.path.join(TOP, "tools")
PROGRAM = os.path.abspath(os.environ.get("FIXPROVE") or
                          os.path.join(TOP, "crates", "fx_main", "out", "fx_main"))
sys.path.insert(0, TOOLS)
import many_runs  # noqa: E402
import results_model as model  # noqa: E402

TEXTS = {
    "a.fx": "{ x in [0,1] -> x + 1 in ? }",
    "b.fx": "{ x in [0,1] -> y in ? } y -> x + 1;",
    "c.fx": "{ x in [0,1] -> x * (1 - x) in [0,0.3] }",
    "d.fx": "{ x in [2,1] -> x in ? }",
    "sub/e.fx": "{ x in [0,1] /\\ y in [0,1] -> x * y in ? } $ x in 32; $ y in 32;",
    "new\nline.fx": "{ x in [0,2] -> x in ? }",
}


class Case(unittest.TestCase):
    def setUp(self):
        room = tempfile.TemporaryDirectory()
        self.addCleanup(room.cleanup)
        self.room = room.name
        for name, text in TEXTS.items():
            self.made("s/" + name, text)

    def made(self, name, text):
        path = os.path.join(self.room, name)
        os.makedirs(os.path.dirname(path), exist_ok=True)
        with open(path, "w", encoding="utf-8") as file:
            file.write(text)
        return path

    def words(self, *words):
        program = () if "--program" in words else ("--program", PROGRAM)
        return [sys.executable, "-B", os.path.join(TOOLS, "many"), *words, *program]

    def run_tool(self, *words, given=b""):
        done = subprocess.run(self.words(*words), cwd=self.room, input=given, check=False,
                              stdout=subprocess.PIPE, stderr=subprocess.PIPE)
        return done.returncode, done.stdout.decode(), done.stderr.decode()

    def lines_kept(self):
        """How many whole lines the folder of answers has by now."""
        count, folder = 0, os.path.join(self.room, "r")
        for name in os.listdir(folder) if os.path.isdir(folder) else ():
            with open(os.path.join(folder, name), "rb") as file:
                count += file.read().count(b"\n")
        return count

    def kept(self):
        """The lines of the folder of answers."""
        found = []
        for name in sorted(os.listdir(os.path.join(self.room, "r"))):
            with open(os.path.join(self.room, "r", name), encoding="utf-8") as file:
                found += [json.loads(line) for line in file]
        return found

    def test_each_answer_is_that_of_prove(self):
        found = self.run_tool("s", "--jobs", "2", "--json", "j")
        # (b: an assumed hint; the order is that of the names)
        self.assertEqual(found[0], 1)
        self.assertEqual([line.partition(": ")[0] for line in found[1].splitlines()],
                         ["s/b.fx", "s/c.fx", "s/d.fx"])
        self.assertIn("many: 6 done, 3 failed, 0 left", found[2])
        with open(os.path.join(self.room, "j"), encoding="utf-8") as file:
            report = json.load(file)
        self.assertEqual((report["command"], report["status"], report["exit"]), ("many", 1, 1))
        for row in report["scripts"]:
            path = os.path.join(self.room, row["name"])
            done = subprocess.run([PROGRAM, "prove", path], stdout=subprocess.PIPE, check=False)
            self.assertEqual((row["status"], row["lines"]),
                             (done.returncode, done.stdout.decode().splitlines()))
        # sub/e.fx has 1024 boxes, more than `batch` allows
        self.assertEqual(report["scripts"][-1]["status"], 0)
        self.assertEqual(self.run_tool("s/sub", "--boxes", "1023")[0], 4)
        self.assertEqual(self.run_tool("-", given=b"s/a.fx\ns/b.fx\n", *["--allow-assumed"])[0], 0)
        self.assertEqual(self.run_tool("-", given=b"s/a.fx\ns/none.fx\n")[0], 6)

    def test_kept_answers_are_left_out(self):
        first = self.run_tool("s", "--results", "r")
        self.assertEqual(len(self.kept()), 6)
        again = self.run_tool("s", "--results", "r")
        self.assertEqual(again[:2], first[:2])
        self.assertIn("6 answers were there before", again[2])
        self.assertEqual(len(self.kept()), 6)
        self.run_tool("s", "--results", "r", "--rounds", "30")
        self.assertEqual(len(self.kept()), 12)
        self.made("s/a.fx", TEXTS["a.fx"] + "\n# changed")
        self.run_tool("s", "--results", "r")
        self.assertEqual(len(self.kept()), 13)

    def test_another_program_has_other_answers(self):
        options = {"rounds": 20, "depth": 16, "boxes": 4096}
        folder = os.path.join(self.room, "r")
        with many_runs.Kept(folder, PROGRAM, options) as kept:
            row = model.script_result(b"a", b"{ 3 in ? }", 0, ["3 in [3, 3]"])
            kept.add([row, dict(row, status=8), dict(row, sha256=None)])
        self.assertEqual(many_runs.Kept(folder, PROGRAM, options).found, {row["sha256"]: row})
        self.assertEqual(many_runs.Kept(folder, __file__, options).found, {})

    def test_a_line_that_was_cut_off_is_no_answer(self):
        self.run_tool("s", "--results", "r")
        name = os.path.join(self.room, "r", os.listdir(os.path.join(self.room, "r"))[0])
        with open(name, "rb+") as file:
            file.truncate(os.path.getsize(name) - 20)
        self.assertEqual(len(many_runs.Kept(os.path.join(self.room, "r"), PROGRAM, {
            "rounds": 20, "depth": 16, "boxes": 4096}).found), 5)
        found = self.run_tool("s", "--results", "r")
        self.assertIn("5 answers were there before", found[2])

    def test_a_stop_and_going_on(self):
        for number in range(400):
            self.made("t/%03d.fx" % number, TEXTS["a.fx"] + "# %d" % number)
        whole = self.run_tool("t")
        # a program whose first list ends, and whose others wait until there is a folder `on`
        text = "#!/bin/sh\ncd '%s'\n" \
               "[ \"$1\" != batch ] || [ -d on ] || mkdir first 2> %s || exec sleep 600\n" \
               "cd \"$OLDPWD\"\nexec '%s' \"$@\"\n" % (self.room, os.devnull, PROGRAM)
        program = self.made("p", text)
        os.chmod(program, 0o755)
        words = self.words("t", "--jobs", "2", "--results", "r", "--program", program)
        how = {"cwd": self.room, "stdout": subprocess.PIPE, "stderr": subprocess.PIPE}
        with subprocess.Popen(words, **how) as process:
            # 400 scripts for two jobs: lists of 50
            while self.lines_kept() < 50 and process.poll() is None:
                time.sleep(0.01)
            process.send_signal(signal.SIGTERM)
            said = process.communicate()[1].decode()
        self.assertEqual(process.returncode, 143, said)
        self.assertIn("the same command goes on", said)
        self.assertEqual(len(self.kept()), 50)
        os.mkdir(os.path.join(self.room, "on"))
        found = self.run_tool("t", "--results", "r", "--program", program)
        self.assertEqual(found[:2], whole[:2])
        self.assertIn("50 answers were there before", found[2])
        self.assertEqual(len(self.kept()), 400)

    def test_a_list_that_breaks_off(self):
        # a program whose `batch` ends without an answer
        text = "#!/bin/sh\n[ $1 = batch ] && exit 8\nexec '%s' \"$@\"\n" % PROGRAM
        program = self.made("p", text)
        os.chmod(program, 0o755)
        options = {"rounds": 20, "depth": 16, "boxes": 4096}
        runs = many_runs.Runs(program, options, 1)
        names = [os.fsencode(os.path.join(self.room, "s", it)) for it in ("a.fx", "d.fx")]
        self.assertEqual([it["status"] for it in runs.rows(names)], [0, 3])

    def test_errors_are_one_line(self):
        self.made("empty", "")
        self.made("gap", "s/a.fx\n\ns/b.fx\n")
        for words in ((), ("none",), ("empty",), ("gap",), ("s/a.fx",), ("s", "--jobs", "0"),
                      ("s", "--boxes", "0"), ("s", "--json", "no/j"), ("s", "--json", "s/a.fx"),
                      ("s", "--results", "gap")):
            found = self.run_tool(*words)
            self.assertEqual((found[0], found[1], found[2].count("\n")), (2, "", 1), (words, found))


if __name__ == "__main__":
    unittest.main()
