"""What a random source is drawn of: classes, fields and methods, before they are texts."""
from __future__ import annotations

from dataclasses import dataclass, field
from typing import Optional

# a parameter: whether it is final, its type and its name
Parameter = tuple[bool, str, str]
# a variable that can be seen: its name, whether it is final, and its type
Variable = tuple[str, bool, str]


@dataclass(eq=False)
class Field:
    name: str
    ty: str
    final: bool
    guard: Optional[str] = None
    word: Optional[str] = None


@dataclass(eq=False)
class Method:
    name: str
    params: list[Parameter]
    result: str
    atomic: bool = False
    over: Optional[Method] = None
    requires: list[str] = field(default_factory=list)


@dataclass(eq=False)
class Class:
    name: str
    fields: list[Field] = field(default_factory=list)
    methods: list[Method] = field(default_factory=list)
    runnable: bool = False
    above: Optional[Class] = None

    def line(self) -> list[Class]:
        """The class and those above it, the nearest first."""
        return [self] + (self.above.line() if self.above else [])

    def all_fields(self) -> list[Field]:
        """Its fields, those of the classes above first."""
        return [f for c in reversed(self.line()) for f in c.fields]

    def all_methods(self) -> list[Method]:
        """Its methods, own ones in place of those that they override."""
        named = {m.name: m for c in reversed(self.line()) for m in c.methods}
        return list(named.values())

    def finals(self) -> list[Field]:
        return [f for f in self.all_fields() if f.final]

    def counts(self) -> bool:
        return any(c.runnable for c in self.line())
