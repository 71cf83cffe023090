"""The reader of scripts beside docs/FORMATS.md and beside the program.

    python3 -m unittest discover -s tools/tests

FIXPROVE_TEXTS=2000 in the environment compares so many random texts; 300 if it isn't set.
"""

import os
import random
import re
import sys
import unittest
from fractions import Fraction

TOP = os.path.dirname(os.path.dirname(os.path.dirname(os.path.abspath(__file__))))
sys.path.insert(0, os.path.join(TOP, "tools"))
sys.dont_write_bytecode = True
import assistants as shared  # noqa: E402
import page_rows  # noqa: E402
from script_text import Fault, Script, literal_value, rounded  # noqa: E402
from script_writing import Writer  # noqa: E402

TEXTS = int(os.environ.get("FIXPROVE_TEXTS", "300"))
SIGNS = (
    "{ } ( ) [ ] , ; = + - * / | < > ? $ ~ @ <= >= <> -> -/ /\\ \\/ ! . ^ in not fixed int fma "
    "float sqrt FIX dn ne x y q 0 1 2.5 1b-3 0x1.8p1 12a 1e3"
).split()


def placed(text):
    """The byte at which the reader stops, or None where it reads the text."""
    try:
        Script(text)
    except Fault as fault:
        return int(str(fault).split()[-1]) if "byte" in str(fault) else -1
    return None


class Rows(unittest.TestCase):
    """The examples of docs/FORMATS.md."""

    def setUp(self):
        self.page = page_rows.read("FORMATS.md")

    def test_answers(self):
        rows = page_rows.table(self.page, "Script", "Lines")
        self.assertGreater(len(rows), 10)
        for script, lines in rows:
            read = Script(script.strip("`"))
            shown = page_rows.quoted(lines)
            answers = [line for line in shown if " in " in line or "unproved" in line]
            if "unproved" not in lines:
                self.assertEqual(len(read.goals), len(answers), script)
            self.assertEqual(read.cases(), 1 + script.count("\\/"), script)

    def test_refusals(self):
        count = 0
        for row in page_rows.table(self.page, "Kind", "When it comes, and its byte", "Example"):
            for script, at in re.findall(r"`(\{[^`]*)`: at (\d+)", row[2]):
                found = placed(script)
                if row[0] in ("`BadToken`", "`Unexpected`", "`UnsupportedOperator`"):
                    self.assertEqual(found, int(at), script)
                    count += 1
                elif found is not None:
                    self.assertGreaterEqual(found, int(at), script)
        self.assertGreaterEqual(count, 3)

    def test_grammar(self):
        """Each form of the grammar's table is read: expressions as goals, the rest in its place."""
        name = ""
        for line in page_rows.section(self.page, "Grammar").splitlines():
            row = page_rows.cells(line)
            if len(row) != 3 or not row[2].startswith("`"):
                continue
            example, name = row[2].strip("`"), row[0] or name
            text = {
                "script": "%s",
                "definition": "@q = int<dn>; %s { z in ? }",
                "operator": "@p = %s; { z in ? }",
                "opname": "@q = int<dn>; %s { z in ? }",
                "formula": "{ %s }",
                "part": "{ %s -> 1 in ? }",
                "conj": "{ %s }",
                "claim": "{ %s -> 1 in ? }",
                "prop": "{ %s }",
                "range": "{ x in %s }",
                "bound": "{ x in [%s,3] }",
                "whole": "{ @FIX(x,%s) -> x in ? }",
                "hint": "{ x in [0,1] -> x in ? } %s",
                "cut": "{ x in [0,1] -> x in ? } %s",
                "need": "{ x in ? } x -> y { %s };",
            }.get(name, "{ %s in ? }")
            self.assertIsNone(placed(text % example), text % example)

    def test_literals(self):
        for text, value in (
            ("2.5e1", 25),
            ("1b-53", Fraction(1, 1 << 53)),
            ("0x1.8p1", 3),
            ("0.1", Fraction(1, 10)),
            ("10b2", 40),
            ("0xFp-4", Fraction(15, 16)),
        ):
            self.assertEqual(literal_value(text), value)

    def test_directions(self):
        """Each direction rounds as its name says, at ties and between, above 0 and below."""
        want = {
            "dn": (1, -2, 1),
            "up": (2, -1, 2),
            "zr": (1, -1, 1),
            "aw": (2, -2, 2),
            "od": (1, -1, 1),
            "ne": (2, -2, 1),
            "no": (1, -1, 1),
            "nz": (1, -1, 1),
            "na": (2, -2, 1),
            "nd": (1, -2, 1),
            "nu": (2, -1, 1),
        }
        for way, results in want.items():
            got = [rounded(way, -3, Fraction(x) / 8) * 8 for x in ("3/2", "-3/2", "5/4")]
            self.assertEqual(tuple(got), results, way)


class Texts(unittest.TestCase):
    """Random texts: the reader stops where the program says that a token has no place, and reads
    what the program takes as the program does."""

    def made(self, chance, seeds):
        """A script of the pages, as it is or with some tokens changed."""
        words = re.findall(r"[A-Za-z0-9_.]+|<=|>=|<>|->|-/|/\\|\\/|\S", chance.choice(seeds))
        for _ in range(chance.choice((0, 1, 1, 1, 2, 3))):
            at = chance.randrange(len(words) + 1)
            way = chance.randrange(4)
            if way == 0:
                words[at:at] = [chance.choice(SIGNS)]
            elif way == 1:
                del words[at : at + 1]
            elif way == 2:
                words[at : at + 1] = [chance.choice(SIGNS)]
            elif words:
                words[at:at] = words[max(0, at - chance.randrange(6)) : at]
        text = ""
        for word in words:
            blank = chance.choice(("", " ", " ", "\n", " # c\n"))
            joint = text[-1:] + word[:1]
            if not blank and (re.match(r"[\w.]{2}", joint) or not re.search(r"\w", joint)):
                blank = " "
            text += blank + word
        return text

    def setUp(self):
        self.program = shared.Program(shared.built())
        self.program.__enter__()
        self.addCleanup(self.program.__exit__)

    def answers(self, texts):
        """What `batch` says of texts, as Answers; of one round, so that it is soon done."""
        found, folder = [], self.program.folder.name
        for begin in range(0, len(texts), 64):
            names = ["%s/t%d.fx" % (folder, k) for k in range(len(texts[begin : begin + 64]))]
            for name, text in zip(names, texts[begin:]):
                shared.write_text(name, text)
            shared.write_text(folder + "/list", "".join(name + "\n" for name in names))
            lines = self.program.run(
                [
                    "batch",
                    folder + "/list",
                    "--rounds",
                    "1",
                    "--depth",
                    "0",
                    "--boxes",
                    "64",
                    "--workers",
                    "1",
                ]
            ).lines
            places = [k for k, line in enumerate(lines) if line.startswith("script " + folder)]
            for a, b in zip(places, places[1:] + [len(lines)]):
                last = lines[b - 1] if b > a + 1 else ""
                status = (
                    3
                    if last.startswith("script: ")
                    else 1
                    if last.startswith("unproved")
                    else 4
                    if last.startswith("limit")
                    else 0
                )
                found.append(shared.Answer(status, lines[a + 1 : b]))
        return found

    def test_texts(self):
        chance = random.Random(7)
        seeds = [
            text
            for text in re.findall(r"`([^`\n]*\{[^`\n]*)`", page_rows.read("FORMATS.md"))
            if placed(text) is None
        ]
        self.assertGreater(len(seeds), 15)
        texts = [self.made(chance, seeds) for _ in range(TEXTS)]
        answers = self.answers(texts)
        self.assertEqual(len(answers), len(texts))
        again, firsts, stops = [], [], 0
        for text, answer in zip(texts, answers):
            found = placed(text)
            if answer.status != 3:
                self.assertIsNone(found, text)
                script = Script(text)
                writer = Writer(script, {})
                again += [script.written(), writer.written([writer.claim(c) for c in script.goals])]
                firsts += [answer, answer]
                if answer.status == 0:
                    self.assertEqual(len(script.goals), len(answer.intervals), text)
                continue
            kind, at = answer.lines[0].split()[1], int(answer.lines[0].split()[-1])
            if kind in ("BadToken", "Unexpected"):
                stops += 1
                self.assertEqual(found, at, (answer.lines[0], text))
            elif found is not None and found != -1:
                self.assertGreaterEqual(found, at, (answer.lines[0], text))
        self.assertGreater(stops, TEXTS // 5)
        self.assertGreater(len(again), TEXTS // 5)
        for first, second, text in zip(firsts, self.answers(again), again):
            self.assertEqual(
                (first.status, first.intervals, first.goal, first.case),
                (second.status, second.intervals, second.goal, second.case),
                text,
            )


if __name__ == "__main__":
    unittest.main()
