"""tools/paths.py: the faults that it finds in crates.txt.

python3 -m unittest discover -s tools/tests -p test_paths.py
"""

import contextlib
import io
import os
import sys
import tempfile
import unittest
from unittest import mock

TOP = os.path.dirname(os.path.dirname(os.path.dirname(os.path.abspath(__file__))))
sys.path.insert(0, os.path.join(TOP, "tools"))
sys.dont_write_bytecode = True
import paths  # noqa: E402

LINES = {"under": "std", "beside": "std", "on_top": "under std", "fx_main": "on_top"}
FILES = {"crates/under/src/lib.rt": "pub fn one() {}\n",
         "crates/beside/src/lib.rt": "pub fn two() {}\n",
         "crates/on_top/src/lib.rt": "use under::one;\n",
         "crates/fx_main/src/main.rt": "use on_top;\n"}


class Paths(unittest.TestCase):
    def ran(self, lines=None, files=None, chain=2):
        """Status and lines of a run in a repository of four crates."""
        with tempfile.TemporaryDirectory() as top:
            texts = dict(FILES, **(files or {}))
            texts["crates.txt"] = "".join(f"{name}: {names}\n"
                                          for name, names in dict(LINES, **(lines or {})).items())
            texts["tools/paths.txt"] = f"chain {chain}\n"
            for name, text in texts.items():
                os.makedirs(os.path.dirname(os.path.join(top, name)), exist_ok=True)
                with open(os.path.join(top, name), "w", encoding="utf-8") as file:
                    file.write(text)
            with mock.patch.multiple(paths, TOP=top, NUMBERS=f"{top}/tools/paths.txt"), \
                    contextlib.redirect_stdout(io.StringIO()) as shown:
                return paths.main([]), shown.getvalue()

    def test_lines_as_the_files_cite(self):
        self.assertEqual(self.ran(), (0, ""))

    def test_a_crate_that_no_file_cites(self):
        self.assertEqual(self.ran({"on_top": "under beside std"}), (
            1, "crates.txt: on_top lists beside, which no file of it cites\n"))

    def test_a_crate_that_the_line_leaves_out(self):
        for name, text in (("src/more.rt", "use beside::two;\n"),
                           ("src/more.rt", "use beside;\n"),
                           ("specs/More.antt", "use Rattle.beside.specs.More.{two}\n"),
                           ("proofs/More.antt", "use Rattle.beside.specs.More.{two}\n")):
            with self.subTest(name=name, text=text):
                self.assertEqual(self.ran(files={f"crates/on_top/{name}": text}), (
                    1, "crates.txt: on_top doesn't list beside, which a file of it cites\n"))

    def test_a_module_with_the_name_of_a_crate(self):
        self.assertEqual(self.ran(files={
            "crates/on_top/src/lib.rt": "mod beside;\nuse under::one;\nuse beside::here;\n",
            "crates/on_top/src/beside.rt": "pub fn here() {}\n"}), (0, ""))

    def test_comments_cite_nothing(self):
        self.assertEqual(self.ran(files={
            "crates/on_top/src/more.rt": "// use beside::two;\n",
            "crates/on_top/proofs/More.antt": "-- Rattle.beside\n"}), (0, ""))

    def test_a_longer_chain(self):
        self.assertEqual(self.ran(chain=1), (
            1, "crates.txt: 'chain' is 2, and tools/paths.txt allows 1\n"))


if __name__ == "__main__":
    unittest.main()
