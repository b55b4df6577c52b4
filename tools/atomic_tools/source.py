"""The text of a source as classes, methods and numbered parts.

    source = Source(data)          the bytes of a source that the program reads as a program
    source.methods[2].body         its parts: `word`, where it begins and ends, and its own parts
    source.place(offset)           a line and a column, counted from 1
    source.part_at(offset)         the part that a place of the program names

Nothing here judges: the types that are asked for are those that names have.
"""
from __future__ import annotations

import bisect
import re
from collections.abc import Iterable
from typing import Optional, TypeVar

from .parts import Class, Field, Method, Part
from .reader import Reader

Numbered = TypeVar("Numbered", Field, Method)


class Source:
    def __init__(self, data: bytes) -> None:
        self.data = data
        text = data.decode("latin-1")
        self.starts = [0] + [found.end() for found in re.finditer("\n", text)]
        self.classes = Reader(text).program()
        self.by_name: dict[str, Class] = {}
        for found in self.classes:
            self.by_name.setdefault(found.name, found)
        for found in self.classes:
            found.above = self.by_name.get(found.above_name)
        self.fields = numbered(field for owner in self.classes for field in owner.fields)
        self.methods = numbered(method for owner in self.classes for method in owner.methods)
        for method in self.methods:
            number_parts(method)
        self.begins = [method.begin for method in self.methods]

    # Places.

    def place(self, offset: int) -> tuple[int, int]:
        line = bisect.bisect_right(self.starts, offset)
        return line, offset - self.starts[line - 1] + 1

    def offset(self, line: int, column: int) -> int:
        return self.starts[line - 1] + column - 1

    def slice(self, begin: int, end: int) -> str:
        return self.data[begin:end].decode("utf-8", "replace")

    def method_at(self, offset: int) -> Optional[Method]:
        """The method whose text has the offset."""
        found = bisect.bisect_right(self.begins, offset) - 1
        return self.methods[found] if found >= 0 and offset < self.methods[found].end else None

    def part_at(self, offset: int) -> Optional[Part]:
        """The part that has its own place there, else the largest that begins there."""
        method = self.method_at(offset)
        parts = list(method.body.all()) if method else []
        named = [part for part in parts if part.word in ("get", "call") and part.at == offset]
        begun = [part for part in parts if part.begin == offset and part.word != "block"]
        return next(iter(named + begun + [part for part in parts if part.at == offset]), None)

    # Types.

    def class_of(self, part: Part, method: Method) -> Optional[Class]:
        """The class of an expression, None where it has none."""
        return self.by_name.get(self.type_of(part, method))

    def type_of(self, part: Part, method: Method) -> str:
        if part.word == "this":
            return method.owner.name
        if part.word == "var":
            return part.type
        if part.word == "new":
            return part.name
        if part.word == "get":
            field = self.field_of(part, method)
            return field.type if field else ""
        if part.word == "call":
            called = self.called_by(part, method)
            return called.result if called else ""
        return ""

    def field_of(self, part: Part, method: Method) -> Optional[Field]:
        """The field that an access is about."""
        owner = self.class_of(part.parts[0], method)
        return owner.field_named(part.name) if owner else None

    def called_by(self, part: Part, method: Method) -> Optional[Method]:
        """The method that a call names."""
        owner = self.class_of(part.parts[0], method)
        return owner.method_named(part.name) if owner else None


def numbered(items: Iterable[Numbered]) -> list[Numbered]:
    found = list(items)
    for number, item in enumerate(found):
        item.number = number
    return found


def number_parts(method: Method) -> None:
    for number, part in enumerate(method.body.all()):
        part.number = number
        for own in part.parts:
            own.above = part
