"""Tests of tools/statement.py: what the document holds, its order, and its words."""
import contextlib
import io
import os
import sys
import unittest

TOP = os.path.dirname(os.path.dirname(os.path.dirname(os.path.abspath(__file__))))
sys.path.insert(0, f"{TOP}/tools")
import statement  # noqa: E402


class OfTheDocument(unittest.TestCase):
    """The document of this repository."""

    @classmethod
    def setUpClass(cls):
        cls.it = statement.Statement(TOP)
        cls.keys = cls.it.document()
        cls.at = {}
        for at, key in enumerate(cls.keys):
            cls.at.setdefault(cls.it.name(key), at)

    def test_a_crate_cites_none_that_stands_after_it(self):
        order = {}
        for key in self.keys:
            order.setdefault(self.it.where(key), len(order))
        for key in self.keys:
            if self.it.kind[key] != "lemma":
                for other in self.it.graph.cites(key):
                    crate = self.it.where(other)
                    self.assertLessEqual(order.get(crate, 0), order[self.it.where(key)], key)

    def test_what_a_certificate_begins_and_ends_with_is_there(self):
        for name in ("magic_at", "version_at", "counts_at"):
            key = self.keys[self.at[f"cert_bytes.specs.Reading.{name}"]]
            self.assertEqual(self.it.kind[key], "definition")

    def test_subjects_rise(self):
        names = ("fx_model.specs.Expression.value", "facts.specs.Order.slot_of",
                 "theorem_list.specs.Concludes.concludes", "script_grammar.specs.Spells.Spells",
                 "settler.specs.Tight.AreTight", "cert_checker.specs.Outcomes.Comes",
                 "fixprog.specs.Turned.script_of", "point_values.specs.Evaluation.evaluation_of",
                 "fx_top.specs.Run.IsRun")
        places = [self.at[name] for name in names]
        self.assertEqual(places, sorted(places))

    def test_definitions_and_types_have_their_sentences(self):
        key = self.keys[self.at["fx_top.specs.Run.IsRun"]]
        self.assertTrue(self.it.text_of(key).startswith("-- The run is one of the command"))
        code = next(key for key in self.keys if self.it.name(key).endswith(".Direction"))
        self.assertTrue(self.it.text_of(code).startswith("/// A direction of rounding."))

    def test_the_way_to_a_definition_begins_at_the_clause(self):
        ways = list(self.it.why("IsFirstRefusal"))
        self.assertEqual([self.it.name(ways[0][0])], ["fx_top.specs.Run.IsRun"])
        self.assertEqual(list(self.it.why("IsNoDefinition")), [])

    def test_the_page_says_where_its_names_stand(self):
        text = statement.read(f"{TOP}/docs/PROOFS.md")
        self.assertTrue(self.it.page(text) == text, "tools/statement.py --page docs/PROOFS.md")
        self.assertIn("- `crates/fx_top/specs/Run.antt`: `IsRun`", text)

    def test_lemmas_have_their_types_alone(self):
        lemma = self.keys[self.at["facts.specs.Ranges.is_below_in"]]
        self.assertEqual(self.it.kind[lemma], "lemma")
        self.assertNotIn("\nis_below_in x", self.it.text_of(lemma))


class OfItsWords(unittest.TestCase):
    """Words that can't be read."""

    def test_wrong_words_are_one_line(self):
        for words in (["--nonsense"], ["--largest"], ["--largest", "x"], ["--count", "--list"]):
            said = io.StringIO()
            with contextlib.redirect_stderr(said), self.assertRaises(SystemExit) as stop:
                statement.words_of(words)
            self.assertEqual(stop.exception.code, 2)
            self.assertEqual(said.getvalue().count("\n"), 1)


if __name__ == "__main__":
    unittest.main()
