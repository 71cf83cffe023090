"""tools/links.py: what it finds, and what it leaves alone.

python3 -m unittest discover -s tools/tests -p test_links.py
"""

import os
import sys
import tempfile
import unittest

TOP = os.path.dirname(os.path.dirname(os.path.dirname(os.path.abspath(__file__))))
sys.path.insert(0, os.path.join(TOP, "tools"))
sys.dont_write_bytecode = True
import links  # noqa: E402


class Pages(unittest.TestCase):
    def found(self, text):
        """The faults of a page `docs/PAGE.md` beside `docs/OTHER.md`, under a folder of its own."""
        with tempfile.TemporaryDirectory() as top:
            os.makedirs(os.path.join(top, "docs"))
            for name, body in (("PAGE.md", text), ("OTHER.md", "# One\n\n## Two words\n")):
                with open(os.path.join(top, "docs", name), "w", encoding="utf-8") as file:
                    file.write(body)
            return list(links.faults(os.path.join(top, "docs", "PAGE.md"), top))

    def test_links(self):
        self.assertEqual(self.found("[a](OTHER.md) [b](OTHER.md#two-words) [c](https://x/y)"), [])
        self.assertEqual(self.found("a\n[b](MISSING.md)"), [(2, "MISSING.md")])
        self.assertEqual(self.found("[b](OTHER.md#three)"), [(1, "OTHER.md#three")])

    def test_paths(self):
        self.assertEqual(self.found("`docs/OTHER.md`, `docs/`, `docs/NAME/x`, `other.md`"), [])
        self.assertEqual(self.found("`docs/gone.md`"), [(1, "docs/gone.md")])
        self.assertEqual(self.found("`tools/gone/NAME`"), [(1, "tools/gone")])

    def test_code_blocks(self):
        self.assertEqual(self.found("a\n\n    `docs/gone.md`\n\n```\n[a](gone)\n```\n"), [])

    def test_this_repository(self):
        """Every page is read, and leads somewhere."""
        self.assertEqual(links.main([]), 0)
        read = [number for number, _ in links.prose(links.read(os.path.join(TOP, "README.md")))]
        self.assertGreater(len(read), 60)


if __name__ == "__main__":
    unittest.main()
