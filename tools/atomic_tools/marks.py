"""What stands at places of the listing: the steps of explanations with their numbers, notes before and behind lines,
and the lines from one step to the other."""
from __future__ import annotations

from collections.abc import Iterable
from typing import NamedTuple, Optional, Union

from .lines import ERRORS, Fact
from .markup import tag
from .parts import Part
from .source import Source

# the number of a step, `!` for an error
Number = Optional[Union[int, str]]


class Note(NamedTuple):
    """What the program says of a line, with the number of its step, and whether it stands between two steps."""

    number: Number
    fact: Fact
    joined: bool


class Marks:
    def __init__(self, source: Source, groups: Iterable[list[Fact]]) -> None:
        self.source = source
        self.numbers: dict[Optional[Part], Number] = {}
        self.before: dict[int, list[Note]] = {}
        self.behind: dict[int, list[Note]] = {}
        self.between: set[int] = set()
        for group in groups:
            self.add(group)

    def add(self, group: list[Fact]) -> None:
        steps = [note for note in group[1:] if note.is_step]
        lines = sorted(note.line for note in steps)
        for fact in group:
            number = self.number(fact, steps)
            apart = fact.is_gap and len(set(lines)) > 1
            joined = apart or bool(lines) and lines[0] <= fact.line < lines[-1]
            (self.before if apart else self.behind).setdefault(fact.line, []).append(Note(number, fact, joined))
        if lines and lines[0] < lines[-1]:
            self.between |= set(range(lines[0], lines[-1] + 1))

    def number(self, fact: Fact, steps: list[Fact]) -> Number:
        """The number of the step that a note is about, counted from 1, or a `!` where it names an error; the text
        gets it, too."""
        is_wrong = fact.code in ERRORS
        if fact in steps or is_wrong:
            number: Number = "!" if is_wrong else 1 + steps.index(fact)
            self.numbers.setdefault(self.source.part_at(self.source.offset(fact.line, fact.column)), number)
            return number
        places = [(note.line, note.column) for note in steps]
        about = fact.word == "note" and not fact.is_gap and (fact.line, fact.column) in places
        return 1 + places.index((fact.line, fact.column)) if about else None


def badge(number: Number) -> str:
    """The number of a step, a `!` for an error."""
    if number is None:
        return ""
    return tag("sup", str(number), class_="step wrong" if number == "!" else "step")
