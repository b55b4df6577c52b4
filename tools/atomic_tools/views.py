"""A method as the page shows it: the tree of each part over what the caller holds, and which statement each piece of
text belongs to.

Basics, trees, lines and explanations are the program's. Which text belongs to which part, what an access is guarded
by and which locks are held are read from the text by `source` and `held`; where that reading and the program's
differ, there is no page.
"""
from __future__ import annotations

from collections import deque
from typing import List, Optional, Tuple

from .command import Failed
from .held import Reading
from .lines import Fact
from .parts import Method, Part
from .programs import Answers
from .source import Source
from .trees import Book, Path, Tree, paths_in, value

OWNED = ("if", "while", "sync")
ACCESSES = ("get", "call", "new")

# a piece of text and the statement that it belongs to, None where it belongs to none
Piece = tuple[int, int, Optional[Part]]
# an access or call of a statement, with those in it
Access = Tuple[Part, List["Access"]]


class View:
    """A method as the page shows it: its tree and those of its parts, the boxes, and its explanation."""

    def __init__(self, source: Source, method: Method, answers: Answers) -> None:
        self.source, self.method, self.reading = source, method, Reading(source, method)
        self.trees = self.judged(answers)
        self.tree = self.trees.get(0)
        self.shown = {number: line.partition(" ")[2] for number, line in enumerate(answers.shown)}
        self.why = next((group for group in answers.explanations if is_about(group, method)), None)
        wanted: set[Path] = set().union(*(paths_in(tree) for tree in self.trees.values()))
        self.boxes = sorted(wanted | self.reading.required)
        self.accesses: dict[Part, list[Access]] = {}

    def judged(self, answers: Answers) -> dict[int, Tree]:
        """The trees of the method's parts; without a book their basics at the `requires`, as far as they are told."""
        parts = list(self.method.body.all())
        told = answers.parts_of(self.method.full_name())
        if answers.book is not None:
            trees = self.from_book(answers.book, parts)
        else:
            trees = {} if told is None else {part.number: basic_of(told, part) for part in parts}
        for number, fact in (told or {}).items():
            self.hold(trees, fact, parts[number])
        return trees

    def hold(self, trees: dict[int, Tree], fact: Fact, part: Part) -> None:
        """What the program tells of a part is what is read here."""
        name = self.method.full_name()
        if self.source.offset(fact.line, fact.column) not in self.places_of(part):
            raise Failed(f"part {part.number} of {name} isn't where it is read here")
        if value(trees[part.number], self.reading.required) != fact.word:
            raise Failed(f"part {part.number} of {name} is {fact.word}, and not as it is read here")

    def places_of(self, part: Part) -> tuple[int, int, int]:
        """Where the program may place a part: the block of a method at its name, that of a `synchronized` at the
        word."""
        return part.at, part.begin, part.above.begin if part.above else self.method.at

    def from_book(self, book: Book, parts: list[Part]) -> dict[int, Tree]:
        number = self.method.number
        if number >= len(book.words) or book.words[number] != [part.word for part in parts]:
            raise Failed(f"the parts of {self.method.full_name()} as they are read here aren't those of the book")
        return {part.number: self.reading.told(book.parts[number][part.number], part.number) for part in parts}

    def basic(self, part: Part) -> Optional[str]:
        """The basic of a part at the method's `requires`; None where none is known."""
        tree = self.trees.get(part.number)
        return value(tree, self.reading.required) if tree else None

    def own_basic(self) -> Optional[str]:
        return value(self.tree, self.reading.required) if self.tree else None


def basic_of(told: dict[int, Fact], part: Part) -> Tree:
    return told[part.number].word if part.number in told else "const"


def is_about(group: list[Fact], method: Method) -> bool:
    return bool(group) and group[0].text.startswith(method.full_name() + " ")


# Which statement each piece of text belongs to.


def pieces_of(body: Part) -> list[Piece]:
    """The text of a body, cut where another statement begins; the braces of the body belong to none."""
    pieces: list[Piece] = []
    place = cut(body, None, body.begin, pieces)
    pieces.append((place, body.end, None))
    return [piece for piece in pieces if piece[0] < piece[1]]


def cut(part: Part, owner: Optional[Part], place: int, pieces: list[Piece]) -> int:
    """Goes over the statements in a part, whose own text belongs to the owner; the place up to which text is given
    away."""
    for own in part.parts:
        if not own.is_statement() or own.end <= own.begin or is_missing_else(own, part):
            continue
        if own.word == "block" and part.word in OWNED:
            place = cut(own, owner, place, pieces)
            continue
        pieces.append((place, own.begin, owner))
        place = cut(own, own, own.begin, pieces)
        pieces.append((place, own.end, own))
        place = own.end
    return place


def is_missing_else(own: Part, part: Part) -> bool:
    return own.word == "skip" and not part.has_else and own is part.parts[-1]


def cut_off(pieces: deque[Piece], last: int) -> list[Piece]:
    """Takes the pieces up to a place away from the front, and hands them back."""
    taken: list[Piece] = []
    while pieces and pieces[0][0] < last:
        begin, end, part = pieces.popleft()
        taken.append((begin, min(end, last), part))
        if end > last:
            pieces.appendleft((last, end, part))
    return taken


def accesses_in(part: Part, view: View) -> list[Access]:
    """The accesses and calls of a statement that aren't const, those in others within them."""
    found: list[Access] = []
    for own in part.parts:
        if own.is_statement():
            continue
        inner = accesses_in(own, view)
        if own.word in ACCESSES and view.trees.get(own.number, "const") != "const":
            found.append((own, inner))
        else:
            found += inner
    return sorted(found, key=lambda one: one[0].begin)
