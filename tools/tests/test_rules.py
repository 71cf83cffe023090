"""docs/RULES.md beside the sources, and beside the tables of `reference` and of `rechecking`.

python3 -m unittest discover -s tools/tests -p test_rules.py
"""

import os
import re
import sys
import unittest

TOP = os.path.dirname(os.path.dirname(os.path.dirname(os.path.abspath(__file__))))
sys.path[:0] = [TOP, os.path.join(TOP, "tools")]
sys.dont_write_bytecode = True
import links  # noqa: E402
import page_rows  # noqa: E402
from rechecking import rules as rechecked  # noqa: E402
from reference.rules import NUMBERS  # noqa: E402

PAGE = page_rows.read("RULES.md")
RULES = page_rows.rules(PAGE)
# Their premises or conclusions are told in words.
IN_WORDS = (36, 80)


def parts(text):
    """What stands between the commas of a text that no bracket is around."""
    found, depth = [""], 0
    for at in text:
        depth += (at in "([") - (at in ")]")
        found += [""] if at == "," and not depth else []
        found[-1] += "" if at == "," and not depth else at
    return [it.strip() for it in found]


def slot(text):
    """A fact without its interval or power, as `rechecking` writes it."""
    kind, _, inside = text.partition("(")
    if not inside:
        return kind
    words = ", ".join(parts(inside[:-1])[: 2 if kind == "REL" else 1])
    return "%s(%s)" % (kind, re.sub(r"abs (\w)", r"abs(\1)", "C" if words == "c" else words))


def slots(text):
    return [] if text == "no premises" else [slot(it) for it in parts(text)]


class Rules(unittest.TestCase):
    def test_each_rule_has_an_entry(self):
        """They stand in the order of the numbers, under headings that tell these."""
        self.assertEqual([it.number for it in RULES], NUMBERS)
        told = []
        for line in page_rows.section(PAGE, "The rules").splitlines():
            if line.startswith("### "):
                first, last = re.match(r"### (\d+)(?: to (\d+))?: ", line).groups()
                told += [n for n in NUMBERS if int(first) <= n <= int(last or first)]
        self.assertEqual(told, NUMBERS)

    def test_entries_are_whole(self):
        for rule in RULES:
            self.assertTrue(rule.premises and rule.conclusions, rule)
            for text in [rule.premises, *sum(map(list, rule.conclusions), [])]:
                self.assertEqual(text, " ".join(text.split()), rule)
                self.assertEqual(text.count("("), text.count(")"), rule)
                self.assertEqual(text.count("["), text.count("]"), rule)
        self.assertEqual(len({it.definition for it in RULES}), len(RULES))
        self.assertEqual(len({it.words for it in RULES}), len(RULES))

    def test_definitions_and_calls(self):
        """Each definition and each call stands where the page says that it does."""
        found = {}
        for numbers, file, crate in page_rows.table(
            page_rows.section(PAGE, "Where they stand"),
            "Numbers", "Definitions", "Crate of these and of the calls",
        ):
            room = os.path.join(TOP, "crates", *page_rows.quoted(crate))
            definitions = links.read(os.path.join(room, *page_rows.quoted(file)))
            calls = "".join(
                links.read(os.path.join(room, "src", it)) for it in os.listdir(room + "/src"))
            ends = [it.split(" to ") for it in numbers.split(" and ")]
            for rule in RULES:
                if any(int(it[0]) <= rule.number <= int(it[-1]) for it in ends):
                    found[rule.number] = found.get(rule.number, 0) + 1
                    self.assertIn("abbrev pub %s :" % rule.definition, definitions)
                    self.assertIn("pub fn rule_%d(" % rule.number, calls)
        self.assertEqual(found, dict.fromkeys(NUMBERS, 1))

    def test_rechecking(self):
        """`rechecking` has the premises and conclusions of each rule, as far as they are slots."""
        rows = {}
        for number, words, _ in rechecked.ROWS:
            before, _, after = words.partition("->")
            rows[number] = (slots(before.strip() or "no premises"),
                            {slot(it.strip()) for it in after.split("|")})
        self.assertEqual(set(NUMBERS) - set(rows), {80})
        for rule in RULES:
            if rule.number not in IN_WORDS:
                given = {slot(it.partition(";")[0]) for it, _ in rule.conclusions}
                self.assertEqual((slots(rule.premises), given), rows[rule.number], rule)


class Reading(unittest.TestCase):
    def test_an_entry(self):
        """An entry of several lines of premises, conclusions and conditions."""
        text = """# Rules

## The rules

### 1 and 2: some

    1   two words                 one_rule (Gappa: a, b)
        from   BND(x, I),
               BND(y, J)
        gives  BND(x + y, I + J)  if 0 is in I
               VOID               if 0 isn't, and it
                                     never was
               NZR(x)
                 if so

    2   more                      two_rule
        from   no premises
        gives  VOID

## More
"""
        self.assertEqual(page_rows.rules(text), [
            (1, "two words", "one_rule", ["a", "b"], "BND(x, I), BND(y, J)",
             [("BND(x + y, I + J)", "0 is in I"), ("VOID", "0 isn't, and it never was"),
              ("NZR(x)", "so")]),
            (2, "more", "two_rule", [], "no premises", [("VOID", "")])])
        for line in ("but    ", "gives  VOID", "from   VOID"):
            worse = text.replace("gives  VOID\n", "gives  VOID\n        %s\n" % line)
            self.assertRaises(ValueError, page_rows.rules, worse)

    def test_tables_and_lists(self):
        text = "| A | B |\n|---|---|\n| `x` | `1`, |\n| | `\\|` |\n| y | 2 |\n\n| A |\n| z |\n"
        self.assertEqual(page_rows.table(text, "A", "B"), [["`x`", "`1`, `|`"], ["y", "2"]])
        self.assertEqual(page_rows.listed("a\n- b\n  c\n- d\n\ne\n"), ["b c", "d"])


if __name__ == "__main__":
    unittest.main()
