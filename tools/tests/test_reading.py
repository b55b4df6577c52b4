"""What is read from texts: sources, books, schedules."""
from __future__ import annotations

import unittest

from atomic_tools.command import Failed
from atomic_tools.reader import Unread
from atomic_tools.schedules import Fronts, read_schedule, written
from atomic_tools.source import Source
from atomic_tools.trees import Book, paths_in, tree_of_book, value

TEXT = b"""class A {
    final B next;
    int v write_guarded_by this.next;
    A(B next) { this.next = next; }
    atomic int get(final B b) requires this.next, b {
        final A a = this;
        while (a.v < 3 && !(b == null)) { if (a.v == 1) { return a.v; } else a.v = a.v + 1; }
        synchronized (a.next) { ; }
        new Thread(new R()).start();
        System.out.println(-2147483648);
        return this.get(b);
    }
}
class B { }
class R extends B implements Runnable { public void run() { } }
class Main { void main() { } }
"""


class Sources(unittest.TestCase):
    def setUp(self) -> None:
        self.source = Source(TEXT)
        self.method = self.source.methods[0]

    def test_classes_have_their_members(self) -> None:
        self.assertEqual(["A", "B", "R", "Main"], [found.name for found in self.source.classes])
        self.assertEqual(["next", "v"], [field.name for field in self.source.classes[0].fields])
        self.assertEqual((["this", "next"], True), (self.source.fields[1].guard, self.source.fields[1].writes_only))
        self.assertIs(self.source.classes[1], self.source.classes[2].above)

    def test_a_method_has_its_head(self) -> None:
        self.assertEqual(("A.get", True, "int"), (self.method.full_name(), self.method.atomic, self.method.result))
        self.assertEqual([["this", "next"], ["b"]], self.method.requires)
        self.assertEqual(["this", "b", "a"], self.method.slots)

    def test_parts_have_words_in_the_order_of_their_numbers(self) -> None:
        words = [part.word for part in self.method.body.all()]
        self.assertEqual(
            "block local this while and bin get var lit un bin var lit block if bin get var lit".split(), words[:19]
        )
        self.assertEqual(list(range(len(words))), [part.number for part in self.method.body.all()])

    def test_a_place_names_a_part(self) -> None:
        line, column = self.source.place(TEXT.index(b"a.v < 3") + 2)
        part = self.source.part_at(self.source.offset(line, column))
        self.assertEqual((7, 18, "get", "v"), (line, column, part and part.word, part and part.name))

    def test_types_of_expressions(self) -> None:
        calls = [part for part in self.method.body.all() if part.word == "call"]
        self.assertEqual(["int"], [self.source.type_of(part, self.method) for part in calls])

    def test_a_literal_may_be_the_least_number(self) -> None:
        self.assertIn("-2147483648", [part.name for part in self.method.body.all()])

    def test_what_is_no_program_is_refused(self) -> None:
        for text in (b"class", b"class A {", b"class A { void f() { ? } }", b"class A { void f() { x = 1; } }", b"/*"):
            with self.subTest(text=text), self.assertRaises(Unread):
                Source(text)

    def test_a_comment_ends_at_its_first_end(self) -> None:
        self.assertEqual(2, len(Source(b"class Main { /**/ void main() { } /* { */ void f() { } /***/ }").methods))

    def test_only_the_text_of_a_token_counts(self) -> None:
        text = b"class Main { /* \xe2\x80\xae } */ void main() { } // }\n}"
        self.assertEqual(1, len(Source(text).methods))


HELD: list[list[tuple[int, ...]]] = [[(0, 1)], [(2,)], []]


class Books(unittest.TestCase):
    def test_a_tree_has_paths(self) -> None:
        tree = tree_of_book("(0.1 mover (2 atomic cmpd))")
        self.assertEqual(((0, 1), "mover", ((2,), "atomic", "cmpd")), tree)
        self.assertEqual({(0, 1), (2,)}, paths_in(tree))
        self.assertEqual(["mover", "atomic", "cmpd"], [value(tree, frozenset(held)) for held in HELD])

    def test_a_book_has_a_tree_for_each_part(self) -> None:
        book = Book("book 2\nconst\n(0 mover error)\nmethod 0 1\n(block 1 (put 1 (this 0) (lit 0)))\nend\n")
        self.assertEqual([["block", "put", "this", "lit"]], book.words)
        self.assertEqual([((0,), "mover", "error")], book.methods)


class Schedules(unittest.TestCase):
    def test_a_schedule_reads_and_writes_back(self) -> None:
        self.assertEqual([0, 0, 0, 12, 1, 1], read_schedule("# as it ran\n0*3 12\t1 1 # the end"))
        self.assertEqual("0*3 12 1*2", written([0, 0, 0, 12, 1, 1]))

    def test_what_is_no_schedule_is_refused(self) -> None:
        for text in ("x", "1*", "-1", "1*200001", "\u0661", "1*1*1", "9" * 5000):
            with self.subTest(text=text), self.assertRaises(Failed):
                read_schedule(text)

    def test_fronts_are_texts(self) -> None:
        fronts = Fronts([0, 0, 0, 1])
        self.assertEqual(["", "0", "0*2", "0*3", "0*3 1"], [fronts.text(count) for count in range(5)])


if __name__ == "__main__":
    unittest.main()
