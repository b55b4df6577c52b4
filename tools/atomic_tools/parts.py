"""What the text of a source is made of: classes, fields, methods, and the numbered parts of bodies.

Parts have the words and the numbers that books have (docs/formats.md, "Books of derivations"), so what the program
says of the node K of a method is said of the part K here. Offsets count bytes.
"""
from __future__ import annotations

from collections.abc import Iterable, Iterator
from dataclasses import dataclass, field
from typing import NamedTuple, Optional

STATEMENTS = frozenset("local set put block if while sync return print start do skip".split())


class Part:
    """An expression or a statement: its word in books, where it stands, and what it is made of."""

    __slots__ = (
        "word",
        "begin",
        "end",
        "at",
        "parts",
        "name",
        "type",
        "final",
        "slot",
        "lock",
        "number",
        "above",
        "has_else",
    )

    def __init__(
        self, word: str, begin: int, parts: Iterable[Part] = (), at: Optional[int] = None, name: str = ""
    ) -> None:
        self.word, self.begin, self.end, self.name = word, begin, begin, name
        self.at = begin if at is None else at
        self.parts = list(parts)
        # of a variable: its type, whether it is final, and its slot; of a `synchronized` the names of its lock
        self.type, self.final, self.slot = "", False, 0
        self.lock: list[str] = []
        self.number = 0
        self.above: Optional[Part] = None
        self.has_else = True

    def all(self) -> Iterator[Part]:
        """The part and its own parts, in the order of their numbers."""
        waiting = [self]
        while waiting:
            part = waiting.pop()
            yield part
            waiting += reversed(part.parts)

    def is_statement(self) -> bool:
        return self.word in STATEMENTS


class Variable(NamedTuple):
    """A parameter or a local."""

    final: bool
    type: str
    name: str


@dataclass(eq=False)
class Field:
    owner: Class
    name: str
    type: str
    final: bool
    # the names of its guard, none where nothing guards it; and whether the guard is for writing only
    guard: list[str]
    writes_only: bool
    at: int
    number: int = 0


@dataclass(eq=False)
class Method:
    owner: Class
    name: str
    result: str
    parameters: list[Variable]
    requires: list[list[str]]
    at: int
    begin: int
    # where the word `atomic` stands
    atomic_at: Optional[int]
    body: Part
    end: int = 0
    number: int = 0
    slots: list[str] = field(default_factory=list)

    @property
    def atomic(self) -> bool:
        return self.atomic_at is not None

    def full_name(self) -> str:
        return f"{self.owner.name}.{self.name}"


@dataclass(eq=False)
class Class:
    name: str
    above_name: str
    at: int
    end: int = 0
    above: Optional[Class] = None
    fields: list[Field] = field(default_factory=list)
    methods: list[Method] = field(default_factory=list)

    def line(self) -> list[Class]:
        """The class and its ancestors, the nearest first."""
        found: list[Class] = []
        nearest: Optional[Class] = self
        while nearest and nearest not in found:
            found.append(nearest)
            nearest = nearest.above
        return found

    def field_named(self, name: str) -> Optional[Field]:
        return next((found for above in self.line() for found in above.fields if found.name == name), None)

    def method_named(self, name: str) -> Optional[Method]:
        return next((found for above in self.line() for found in above.methods if found.name == name), None)

    def all_fields(self) -> list[Field]:
        return [found for above in reversed(self.line()) for found in above.fields]
