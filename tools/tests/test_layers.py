"""tools/layers.py: the list that it makes, and the faults that it finds.

python3 -m unittest discover -s tools/tests -p test_layers.py
"""

import contextlib
import io
import os
import sys
import tempfile
import unittest
from unittest import mock

TOP = os.path.dirname(os.path.dirname(os.path.dirname(os.path.abspath(__file__))))
sys.path.insert(0, os.path.join(TOP, "tools"))
sys.dont_write_bytecode = True
import layers  # noqa: E402

CRATES = "# Lines of crates.\n\n# low\nunder: std\n\n# high\non_top: under std\n"
DESIGN = "a\n<!-- layers -->\nold\n<!-- end of layers -->\nb\n"
LIST = """**2: high** (on 1)

- [`on_top`](../crates/on_top/README.md): Stands on the other.

**1: low**

- [`under`](../crates/under/README.md): What the other stands on, of which this sentence tells over
  two lines.

"""
READMES = {"under": "# under\n\nWhat the other stands on, of which this sentence tells\n"
                    "over two lines. No more.\n",
           "on_top": "# on_top\n\nStands on the other.\n\nMore.\n"}


class Layers(unittest.TestCase):
    def ran(self, *words, design=DESIGN, crates=CRATES, **readmes):
        """Status, lines, and the page afterwards, of a run in a repository of two crates."""
        with tempfile.TemporaryDirectory() as top:
            files = {"crates.txt": crates, "docs/DESIGN.md": design}
            for name, text in dict(READMES, **readmes).items():
                if text is not None:
                    files["crates/%s/README.md" % name] = text
            for name, text in files.items():
                os.makedirs(os.path.dirname(os.path.join(top, name)), exist_ok=True)
                with open(os.path.join(top, name), "w", encoding="utf-8") as file:
                    file.write(text)
            page = os.path.join(top, "docs/DESIGN.md")
            with mock.patch.multiple(layers, TOP=top, DESIGN=page), \
                    contextlib.redirect_stdout(io.StringIO()) as shown:
                status = layers.main(list(words))
            return status, shown.getvalue().splitlines(), layers.read(page)

    def test_the_list(self):
        """It is told to be another, is written, and is then the same."""
        status, lines, page = self.ran()
        self.assertEqual((status, len(lines), page), (1, 1, DESIGN))
        self.assertIn("--write", lines[0])
        status, lines, page = self.ran("--write")
        self.assertEqual((status, lines), (0, []))
        self.assertEqual(self.ran(design=page), (0, [], page))

    def test_what_is_written(self):
        self.assertEqual(self.ran("--write")[2], DESIGN.replace("old\n", LIST))

    def test_a_readme_without_a_sentence(self):
        """One line names the file, and nothing is written."""
        for text in ("# under\n\nNo stop\n\nOne here.\n", "# under\n", "", None,
                     "# under\n\nVersion 1.5 of `a.b`\n"):
            for words in ((), ("--write",)):
                status, lines, page = self.ran(*words, under=text)
                self.assertEqual((status, len(lines), page), (1, 1, DESIGN), text)
                self.assertIn("crates/under/README.md: ", lines[0])

    def test_order(self):
        status, lines, _ = self.ran("--write", crates="#\n\n# low\non_top: under\nunder:\n")
        self.assertEqual(
            (status, lines), (1, ["crates.txt: on_top stands on under, which comes behind it"]))
        status, lines, _ = self.ran("--write", crates="#\n\nunder:\n\n# low\non_top: under\n")
        self.assertEqual((status, lines), (1, ["crates.txt: under stands in no layer"]))

    def test_this_repository(self):
        self.assertEqual(layers.main([]), 0)


if __name__ == "__main__":
    unittest.main()
