"""The lines of `atomic_why`."""
from __future__ import annotations

import unittest

from atomic_tools.lines import by_parts, explained, facts

TEXT = """f.java:4:17: error: A.b is declared atomic, found cmpd [two-steps]
f.java:5:9: note: atomic step: writes this.low, which nothing guards [first-step]
f.java:9:3: note: A.c is cmpd [two-steps]
"""


class Lines(unittest.TestCase):
    def test_a_line_is_a_place_a_word_and_a_text(self) -> None:
        first = facts(TEXT)[0]
        self.assertEqual(("f.java", 4, 17, "error"), (first.file, first.line, first.column, first.word))
        self.assertEqual("A.b is declared atomic, found cmpd", first.text)

    def test_what_has_another_form_is_passed_over(self) -> None:
        self.assertEqual([], facts("cannot read f.java\nf.java:4: error: x\nf.java:4:x: error: y\n\n"))

    def test_only_lf_ends_a_line(self) -> None:
        for sign in "\r\x0b\x0c\x1c\u0085\u2028":
            with self.subTest(sign=sign):
                self.assertEqual([f"a{sign}b.java"], [fact.file for fact in facts(f"a{sign}b.java:1:2: error: x\n")])

    def test_a_name_that_is_known_stands_in_the_facts(self) -> None:
        name = "x:1:1: error: fake\nf.java"
        found = facts(f"{name}:1:2: error: x\n{name}:1:3: note: y\n", name)
        self.assertEqual([(name, 2, "x"), (name, 3, "y")], [(fact.file, fact.column, fact.text) for fact in found])

    def test_a_number_of_many_digits_is_no_place(self) -> None:
        self.assertEqual([], facts(f"f.java:{'9' * 5000}:1: error: x\n"))
        self.assertEqual([], facts("f.java:\u0661:1: error: x\n"))

    def test_a_code_may_stand_at_the_end(self) -> None:
        first, second = facts("f.java:1:2: error: x [y] [two-steps]\nf.java:1:2: error: x [Y]\n")
        self.assertEqual([("x [y]", "two-steps"), ("x [Y]", "")], [(fact.text, fact.code) for fact in (first, second)])

    def test_notes_stand_with_their_method(self) -> None:
        self.assertEqual([2, 1], [len(group) for group in explained(facts(TEXT))])

    def test_a_warning_stands_by_itself(self) -> None:
        text = TEXT + "f.java:5:9: warning: A.low is written, and nothing guards it [unguarded-field]\n"
        self.assertEqual([2, 1, 1], [len(group) for group in explained(facts(text))])

    def test_parts_have_their_numbers(self) -> None:
        parts = by_parts(facts("f.java:1:2: mover: A.b 0\nf.java:1:9: atomic: A.b 7\n"))
        self.assertEqual(
            {"A.b": {0: "mover", 7: "atomic"}},
            {name: {n: f.word for n, f in own.items()} for name, own in parts.items()},
        )


if __name__ == "__main__":
    unittest.main()
