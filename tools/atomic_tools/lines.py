"""The lines of `atomic_why`: `FILE:LINE:COLUMN: WORD: TEXT [CODE]`, as compilers write them. What a line says is read
by its code (docs/why.md, "Codes"); lines of sources that are no program, and those of `--all`, have none.

    facts(text)            each such line as a Fact
    explained(facts)       the facts by methods: the line that names a method, and the notes on it; a warning by itself
    by_parts(facts)        the facts of `atomic_why --all`, by method and part
"""
from __future__ import annotations

import re
from collections.abc import Iterable
from dataclasses import dataclass
from typing import Optional

# a place has at most nine digits: a source has at most 262,144 bytes
LINE = re.compile(r"(.*):([0-9]{1,9}):([0-9]{1,9}): (\w+): (.*?)(?: \[([a-z-]+)\])?", re.ASCII | re.DOTALL)
# the codes of the lines that begin an explanation
HEADS = frozenset(["lock-error", "two-steps", "step-in-a-loop", "compound-call", "overriding-method"])
# the codes of notes on accesses and calls that lack a lock
ERRORS = frozenset(["guard-not-held", "guard-unnamed", "required-not-held", "required-unnamed", "calls-an-error"])


@dataclass(frozen=True, eq=False)
class Fact:
    """One line: a place, a word and a text; and the code of what it says, nothing where it has none."""

    file: str
    line: int
    column: int
    word: str
    text: str
    code: str = ""

    def shown(self) -> str:
        """The line without the file's name."""
        return f"{self.line}:{self.column}: {self.word}: {self.text}"

    @property
    def is_step(self) -> bool:
        return self.code.endswith("-step")

    @property
    def is_gap(self) -> bool:
        """Whether it tells where another thread may come in."""
        return self.code.startswith("gap-")


def fact_of(line: str, name: Optional[str]) -> Optional[Fact]:
    found = LINE.fullmatch(line)
    if found is None:
        return None
    file, at, column, word, text, code = found.groups()
    return Fact(file if name is None else name, int(at), int(column), word, text, code or "")


def facts(text: str, name: Optional[str] = None) -> list[Fact]:
    """The lines that have the form. A line ends with LF and with nothing else, since names may hold other ends of
    lines.

    Where the name of the file is known, it stands in the facts; a name that has an LF itself is taken from the lines
    first.
    """
    if name is not None and "\n" in name:
        text = text.replace(name + ":", "-:")
    found = (fact_of(line, name) for line in text.split("\n"))
    return [fact for fact in found if fact is not None]


def explained(given: Iterable[Fact]) -> list[list[Fact]]:
    """The facts by methods: the line that names the method, and the notes on it. A warning stands by itself."""
    groups: list[list[Fact]] = []
    for fact in given:
        if fact.word in ("error", "warning") or fact.code in HEADS or not groups:
            groups.append([])
        groups[-1].append(fact)
    return groups


def by_parts(given: Iterable[Fact]) -> dict[str, dict[int, Fact]]:
    """The lines of `atomic_why --all`, by method and part."""
    found: dict[str, dict[int, Fact]] = {}
    for fact in given:
        method, part = fact.text.split()
        found.setdefault(method, {})[int(part)] = fact
    return found
