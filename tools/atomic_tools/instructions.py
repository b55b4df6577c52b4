"""The instructions of a method, as docs/machine.md has them: what the machine does, one step after the other.

    code = Code(source, method)
    code.entry                     the place of the first instruction
    code.items[place]              what it does, with what, of which part, and which one follows
"""
from __future__ import annotations

from collections.abc import Iterable
from dataclasses import dataclass
from typing import Any, Optional

from .parts import Method, Part
from .source import Source

LITERALS = {"true": True, "false": False, "null": None}


@dataclass
class Instruction:
    what: str
    # what it works with: a number, a name, a value, a place or a part, as `what` asks for
    operand: Any
    part: Part
    at: int
    following: Optional[int]


class Code:
    def __init__(self, source: Source, method: Method) -> None:
        self.source, self.method = source, method
        self.items: list[Instruction] = []
        end = self.put(Instruction("ret", None, method.body, method.end - 1, None))
        self.entry = self.block(method.body, [], end)

    def put(self, item: Instruction) -> int:
        self.items.append(item)
        return len(self.items) - 1

    def of_part(self, what: str, operand: Any, part: Part, following: Optional[int]) -> int:
        """An instruction that stands where its part begins."""
        return self.put(Instruction(what, operand, part, part.begin, following))

    # Statements, each before the place of what follows it. `locks` are the `synchronized` blocks that it stands in.

    def block(self, part: Part, locks: list[Part], following: int) -> int:
        for own in reversed(part.parts):
            following = self.statement(own, locks, following)
        return following

    def statement(self, part: Part, locks: list[Part], following: int) -> int:
        if part.word == "skip":
            return following
        if part.word == "block":
            return self.block(part, locks, following)
        if part.word == "if":
            return self.if_(part, locks, following)
        if part.word == "while":
            return self.while_(part, locks, following)
        if part.word == "sync":
            return self.synchronized(part, locks, following)
        if part.word == "return":
            return self.return_(part, locks)
        return self.simple(part, following)

    def simple(self, part: Part, following: int) -> int:
        """A statement that evaluates its parts and then does one thing, or nothing for a call without a result."""
        if part.word in ("local", "set"):
            following = self.of_part("store", part.slot, part, following)
        elif part.word == "put":
            following = self.put(Instruction("put", part.name, part, part.at, following))
        elif part.word in ("print", "start"):
            following = self.of_part(part.word, None, part, following)
        elif self.source.type_of(part.parts[0], self.method) != "void":
            following = self.of_part("drop", None, part, following)
        return self.expressions(part.parts, following)

    def if_(self, part: Part, locks: list[Part], following: int) -> int:
        first = self.statement(part.parts[1], locks, following)
        second = self.statement(part.parts[2], locks, following)
        return self.expression(part.parts[0], self.of_part("branch", second, part, first))

    def while_(self, part: Part, locks: list[Part], following: int) -> int:
        branch = self.of_part("branch", following, part, following)
        entry = self.expression(part.parts[0], branch)
        self.items[branch].following = self.statement(part.parts[1], locks, entry)
        return entry

    def synchronized(self, part: Part, locks: list[Part], following: int) -> int:
        release = self.put(Instruction("release", None, part, part.end - 1, following))
        acquire = self.of_part("acquire", None, part, self.block(part.parts[0], locks + [part], release))
        for name in reversed(part.lock[1:]):
            acquire = self.of_part("get", name, part, acquire)
        return self.of_part("load", part.slot, part, acquire)

    def return_(self, part: Part, locks: list[Part]) -> int:
        place = self.of_part("ret", None, part, None)
        for lock in locks:
            place = self.put(Instruction("release", None, lock, part.begin, place))
        return self.expressions(part.parts, place)

    # Expressions.

    def expressions(self, parts: Iterable[Part], following: int) -> int:
        for part in reversed(list(parts)):
            following = self.expression(part, following)
        return following

    def expression(self, part: Part, following: int) -> int:
        word = part.word
        if word == "lit":
            return self.of_part(
                "push", LITERALS[part.name] if part.name in LITERALS else int(part.name), part, following
            )
        if word in ("this", "var"):
            return self.of_part("load", part.slot, part, following)
        if word in ("and", "or"):
            right = self.expression(part.parts[1], following)
            # what follows where the left part doesn't decide
            decides = self.put(Instruction(word, right, part, part.at, following))
            return self.expression(part.parts[0], decides)
        operand = part if word in ("new", "call") else part.name
        return self.expressions(part.parts, self.put(Instruction(word, operand, part, part.at, following)))
