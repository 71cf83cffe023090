"""`fixprove install` and `uninstall`, --help, --version, manual pages, completion, the record."""

import contextlib
import io
import json
import os
import re
import shutil
import subprocess
import sys
import tempfile
import unittest

TOP = os.path.dirname(os.path.dirname(os.path.dirname(os.path.abspath(__file__))))
TOOLS = os.path.join(TOP, "tools")
PROGRAM = os.path.abspath(os.environ.get("FIXPROVE") or
                          os.path.join(TOP, "crates", "fx_main", "out", "fx_main"))
sys.path.insert(0, TOOLS)
import about  # noqa: E402
import assistants  # noqa: E402
import install  # noqa: E402
import man  # noqa: E402

# what `./fixprove` needs where there is no toolchain
BARE = {"PATH": "/usr/bin:/bin", "HOME": "/nonexistent"}


def run(words, folder="/", **more):
    """Status, output and errors of a command, in a folder and with no FIXPROVE."""
    env = {key: value for key, value in os.environ.items() if key not in ("FIXPROVE", "DESTDIR")}
    done = subprocess.run(words, cwd=folder, env=dict(env, **more), stdin=subprocess.DEVNULL,
                          stdout=subprocess.PIPE, stderr=subprocess.PIPE, check=False)
    return done.returncode, done.stdout.decode(), done.stderr.decode()


def tree(folder):
    """All that is in a folder: names, and what files have."""
    found = {}
    for at, folders, files in os.walk(folder):
        for name in folders + files:
            path = os.path.join(at, name)
            mark = None if os.path.isdir(path) else install.mark_of(path)
            found[os.path.relpath(path, folder)] = mark
    return found


class Case(unittest.TestCase):
    def setUp(self):
        room = tempfile.TemporaryDirectory()
        self.addCleanup(room.cleanup)
        self.room = os.path.realpath(room.name)
        self.prefix = os.path.join(self.room, "pre fix")

    def install(self, what="install", destdir=None):
        """Status, output and errors of the tool, in this process."""
        out, err, before = io.StringIO(), io.StringIO(), sys.argv
        sys.argv = ["fixprove", what, self.prefix]
        sys.argv += ["--program", PROGRAM] if what == "install" else []
        os.environ.pop("DESTDIR", None)
        if destdir:
            os.environ["DESTDIR"] = destdir
        try:
            with contextlib.redirect_stdout(out), contextlib.redirect_stderr(err):
                assistants.ran(install.main)
        except SystemExit as ended:
            return ended.code, out.getvalue(), err.getvalue()
        finally:
            sys.argv = before
            os.environ.pop("DESTDIR", None)

    def put(self, name, text):
        path = os.path.join(self.room, name)
        os.makedirs(os.path.dirname(path), exist_ok=True)
        with open(path, "w", encoding="utf-8") as file:
            file.write(text)
        return path


class Installation(Case):
    def test_commands_run_from_anywhere(self):
        found = self.install()
        self.assertEqual(found[:2], (0, ""), found)
        # (what is installed runs after a move, too)
        moved = os.path.join(self.room, "elsewhere")
        os.rename(self.prefix, moved)
        before = tree(moved)
        script = self.put("empty/a.fx", "{ x in [0,1] -> x * (1 - x) in [0,0.3] }")
        folder = os.path.dirname(script)
        program = os.path.join(moved, "bin", "fixprove")
        self.assertEqual(run([program, "prove", "a.fx"], folder, **BARE)[:2],
                         (1, "unproved: goal 1 at the whole box\n"))
        self.assertEqual(run([program, "help"], folder)[0], 2)
        self.assertIn("fixprove-results", run([program, "--help"], folder)[1])
        commands = sorted(os.listdir(os.path.join(moved, "bin")))
        self.assertEqual(commands, sorted(["fixprove"] + [about.named(name)
                                                          for name, _, _ in about.commands()]))
        for name in ("fixprove", "fixprove-hints"):
            path = os.path.join(moved, "bin", name)
            first = run([path, "--version"], folder)[1].split("\n")[0]
            self.assertTrue(first.startswith(name + " "), first)
        # (whether the tools heed FIXPROVE)
        is_named = hasattr(assistants, "built")
        for name, words, does in man.commands():
            if is_named or name != "fixprove-decimals":
                words = [words[0] if name == "fixprove" else os.path.join(moved, "bin", name)]
                found = run(words + ["--help"], folder, COLUMNS="2000")
                self.assertEqual(found[0::2], (0, ""), name)
                self.assertEqual(man.faults(name, found[1], does), [])
        if is_named:
            for name, status in (("results", 1), ("explain", 0)):
                words = [os.path.join(moved, "bin", "fixprove-" + name)]
                words += ["prove", "a.fx"] if name == "results" else ["a.fx", "--seconds", "2"]
                found = run(words, folder, **BARE)
                self.assertEqual((found[0], found[2]), (status, ""), found)
                self.assertIn("unproved: goal 1", found[1])
        self.assertEqual(tree(moved), before)

    def test_uninstall_takes_away_just_what_was_put(self):
        other = self.put("pre fix/bin/other", "mine")
        empty = os.path.join(self.prefix, "share", "man")
        os.makedirs(empty)
        before = tree(self.room)
        for _ in range(2):
            self.assertEqual(self.install()[0], 0)
        self.assertEqual(self.install("uninstall")[0], 0)
        self.assertEqual(tree(self.room), before)
        self.assertEqual(self.install("uninstall")[0], 2)
        self.assertEqual(self.install()[0], 0)
        changed = self.put("pre fix/bin/fixprove", "changed")
        found = self.install()
        self.assertEqual((found[0], found[2].count("\n")), (2, 1), found)
        self.assertIn(changed, self.install("uninstall")[2])
        self.assertEqual(sorted(os.listdir(os.path.dirname(other))), ["fixprove", "other"])
        self.assertEqual(os.listdir(os.path.join(self.prefix, "share")), ["man"])

    def test_nothing_is_written_over_or_left_half(self):
        self.put("pre fix/share/fixprove/tools/hints", "mine")
        before = tree(self.room)
        found = self.install()
        self.assertEqual((found[0], found[2].count("\n")), (2, 1), found)
        self.assertEqual(tree(self.room), before)
        shutil.rmtree(self.prefix)
        self.put("pre fix/share/man", "a file, where a folder is to be")
        before = tree(self.room)
        found = self.install()
        self.assertEqual((found[0], found[2].count("\n")), (2, 1), found)
        self.assertEqual(tree(self.room), before)

    def test_destdir_stands_before_the_prefix(self):
        stage = os.path.join(self.room, "stage")
        self.assertEqual(self.install(destdir=stage)[0], 0)
        self.assertFalse(os.path.exists(self.prefix))
        program = stage + self.prefix + "/bin/fixprove"
        script = self.put("a.fx", "{ 3 in ? }")
        self.assertEqual(run([program, "prove", script])[1], "3 in [3, 3]\n")
        self.assertEqual(self.install("uninstall", stage)[0], 0)
        self.assertEqual([it for it, mark in tree(stage).items() if mark], [])

    def test_a_manifest_of_another(self):
        self.put("mine", "mine")
        self.put("pre fix/share/fixprove/manifest.json",
                 json.dumps({"files": {"../mine": about.sum_of(self.room + "/mine")},
                             "folders": []}))
        self.assertEqual(self.install("uninstall")[0], 2)
        self.assertTrue(os.path.exists(self.room + "/mine"))

    def test_wrong_words(self):
        for words in ((), ("install",), ("install", ""), ("remove", "x"),
                      ("install", self.prefix, "--program", "/bin/true"),
                      ("install", self.prefix, "--program", "/nonexistent")):
            found = run([sys.executable, "-B", os.path.join(TOOLS, "install.py"), *words])
            self.assertEqual((found[0], found[1], found[2].count("\n")), (2, "", 1), words)
        found = run([sys.executable, "-B", os.path.join(TOOLS, "install.py"), "install",
                     self.prefix, "--program", ""])
        self.assertEqual((found[0], found[2].count("\n")), (70, 1))
        self.assertFalse(os.path.exists(self.prefix))

    def test_what_is_imported_is_found(self):
        self.assertIn("script_text.py", install.needed(["explain"]))
        self.assertIn("hint_steps.py", install.needed(["hints"]))


class Words(Case):
    def test_help_and_version_need_no_toolchain(self):
        script = os.path.join(TOP, "fixprove")
        for words in (("--help",), ("-h",), ("--version",), ("build", "--help"),
                      ("install", "--help")):
            found = run([script, *words], self.room, **BARE)
            self.assertEqual((found[0], found[2]), (0, ""), words)
            self.assertTrue(found[1])

    def test_each_command_tells_its_version(self):
        for name, _, _ in about.commands():
            found = run([sys.executable, "-B", os.path.join(TOOLS, name), "--version"], self.room)
            self.assertEqual((found[0], found[2]), (0, ""), name)
            self.assertRegex(found[1], r"^%s .*\n(?:.*\n)*proved: " % name)

    def test_the_usage_is_that_of_the_formats(self):
        with open(os.path.join(TOP, "docs", "FORMATS.md"), encoding="utf-8") as page:
            rows = re.findall(r"^    fixprove (\w+ .*)$", page.read(), re.M)
        self.assertEqual(len(rows), 8)
        for row in rows:
            self.assertIn("  " + row, about.usage())

    def test_a_page_without_an_option_is_found(self):
        found = man.faults("fixprove", " --help, --version, --nothing", "")
        self.assertEqual(len(found), 1)
        self.assertIn("--nothing", found[0])

    def test_options_of_a_help(self):
        text = "usage: x\n\noptions:\n  -h, --help  shows *this*\n  --set n=4..24  `a`, twice\n"
        self.assertEqual(man.options_of(text), "`-h`, `--help`\n:   shows \\*this\\*\n\n"
                                               "`--set` *n=4..24*\n:   `a`, twice\n")


class Record(Case):
    """A program is called proved where a record has its SHA-256, and nowhere else."""

    def setUp(self):
        Case.setUp(self)
        for name in ("tools/about.py", "tools/commands.txt", "crates/a/src/a.rt", "crates.txt",
                     "HANDLES", "crates/fx_main/out/fx_main"):
            self.put(name, name)
        for name in ("about.py", "commands.txt"):
            shutil.copy(os.path.join(TOOLS, name), os.path.join(self.room, "tools", name))

    def about(self, *words):
        return run([sys.executable, "-B", os.path.join(self.room, "tools", "about.py"), *words])

    def test_it(self):
        self.assertIn("\nproved: not known", self.about("--version")[1])
        self.assertEqual(self.about("recorded")[0], 1)
        sources = self.about("sources")[1].strip()
        self.assertEqual(self.about("record", "./fixprove build", "0" * 64)[0], 2)
        self.assertEqual(self.about("recorded")[0], 1)
        self.assertEqual(self.about("record", "./fixprove build", sources)[0], 0)
        self.assertEqual(self.about("recorded")[0], 0)
        self.assertIn("\nproved: yes, recorded by ./fixprove build", self.about("--version")[1])
        self.put("crates/a/specs/b.antt", "more")
        self.assertIn("\nproved: yes, of other sources", self.about("--version")[1])
        self.put("crates/fx_main/out/fx_main", "another program")
        self.assertIn("\nproved: not known", self.about("--version")[1])
        self.assertIn("\nproved: no;", self.about("--version", "")[1])


class Build(Case):
    """`./fixprove build` with a stand-in for the toolchain: what is recorded, and when."""

    RT = """#!/bin/sh
case $1 in
    all) mkdir -p ../a/out/rlib/a.rlib; printf '== a\\n== fx_main\\n'; exit ${RT_STATUS:-0} ;;
    run) mkdir -p out; printf '#!/bin/sh\\necho ran\\n' > out/fx_main; chmod +x out/fx_main ;;
esac
[ -z "$RT_EDIT" ] || echo more >> ../a/src/a.rt
"""

    def setUp(self):
        Case.setUp(self)
        for name in ("fixprove", "tools/about.py", "tools/build.py", "tools/commands.txt"):
            self.put(name, "")
            shutil.copy(os.path.join(TOP, name), os.path.join(self.room, name))
        self.put("crates.txt", "a:\nfx_main: a\n")
        for name in ("HANDLES", "crates/a/src/a.rt", "crates/fx_main/src/main.rt"):
            self.put(name, name)
        os.chmod(self.put("kit/bin/rt", self.RT), 0o755)
        self.put("kit/KIT-ID", "kit-1 logic 2\n")

    def fixprove(self, *words, **more):
        path = {"PATH": os.path.join(self.room, "kit", "bin") + ":/usr/bin:/bin"}
        return run([os.path.join(self.room, "fixprove"), *words], "/", **dict(path, **more))

    def test_a_build_is_recorded(self):
        self.assertIn("\nproved: no;", self.fixprove("--version")[1])
        self.assertEqual(self.fixprove("build", RT_STATUS="1")[0], 70)
        self.assertEqual(self.fixprove("build", RT_EDIT="yes")[0], 70)
        self.assertNotIn("\nproved: yes", self.fixprove("--version")[1])
        found = self.fixprove("build")
        self.assertEqual((found[0], found[1]), (0, ""), found)
        said = self.fixprove("--version")[1]
        self.assertIn("\nkit: kit-1 logic 2\n", said)
        self.assertIn("\nproved: yes, recorded by ./fixprove build", said)
        self.assertEqual(self.fixprove("prove", "x")[:2], (0, "ran\n"))
        # what is recorded isn't built again, and needs no toolchain
        self.assertEqual(self.fixprove("build", PATH="/usr/bin:/bin")[0], 0)
        # a program that another hand put there isn't called proved, and `build` makes it anew
        os.chmod(self.put("crates/fx_main/out/fx_main", "#!/bin/sh\n"), 0o755)
        self.assertIn("\nproved: not known", self.fixprove("--version")[1])
        self.assertEqual(self.fixprove("build", PATH="/usr/bin:/bin")[0], 70)
        self.assertEqual(self.fixprove("build")[0], 0)
        self.assertIn("\nproved: yes", self.fixprove("--version")[1])


class Completion(Case):
    def completed(self, command, *words):
        made = "_fixprove" if command.endswith("fixprove") else "_fixprove_tool"
        quoted = " ".join("'%s'" % it for it in (command,) + words)
        text = "\n".join([". '%s'" % os.path.join(TOOLS, "completion", "fixprove"),
                          "COMP_WORDS=(%s) COMP_CWORD=%d" % (quoted, len(words)),
                          "%s '%s'" % (made, command), "printf '%s\\n' \"${COMPREPLY[@]}\""])
        return run(["bash", "-c", text], self.room)[1].split()

    def test_words(self):
        self.assertEqual(self.completed("fixprove", "ch"), ["check"])
        self.assertNotIn("install", self.completed("fixprove", ""))
        self.assertEqual(self.completed("./fixprove", "ins"), ["install"])
        self.assertEqual(self.completed("fixprove", "prove", "--r"), ["--rounds"])
        self.assertEqual(self.completed("fixprove", "check", "--"), [])
        self.put("a b.fx", "")
        self.assertEqual(self.completed("fixprove", "prove", "a"), ["a", "b.fx"])
        results = os.path.join(TOOLS, "results")
        self.assertEqual(self.completed(results, "--ju"), ["--junit"])
        self.assertEqual(self.completed(results, "ba"), ["batch"])


if __name__ == "__main__":
    unittest.main()
