"""The refused methods of sources as results for builds: each with its rule, its message, its place and the related
ones."""
from __future__ import annotations

import os
import re
import sys
from collections.abc import Iterable
from dataclasses import dataclass, field
from typing import NamedTuple, Optional

from .command import Failed
from .escapes import warnings_of
from .lines import Fact, explained, facts
from .programs import explanations


class Rule(NamedTuple):
    """Why a method is refused: the code of its explanation, what it says, and what helps."""

    name: str
    says: str
    help: str
    level: str = "error"


RULES = [
    Rule(
        "guard-not-held",
        "an access without the lock that guards its field",
        "Take the lock around the access with `synchronized`, or say `requires` behind the method's parameters, so "
        "that each caller takes it. A lock counts under the name that the guard has: a second name of "
        "the same object is a second lock here.",
    ),
    Rule(
        "guard-unnamed",
        "an access whose guard has no name there",
        "Name the object by a final variable that is declared where the lock is held, or take the lock by that name.",
    ),
    Rule(
        "required-not-held",
        "a call without a lock that the called method requires",
        "Take the lock around the call with `synchronized`, or say `requires` behind the method's parameters, so that "
        "each caller takes it.",
    ),
    Rule(
        "required-unnamed",
        "a call whose called method requires a lock that has no name there",
        "Put the object into a final variable first, and take its lock by that name.",
    ),
    Rule(
        "calls-an-error",
        "a call of a method that touches a field without its guard",
        "The called method has its own result, which says what it touches. Mend that one first.",
    ),
    Rule(
        "two-steps",
        "two steps that can't be moved, between which another thread may come in",
        "Hold the lock that the notes name around both steps. Where no lock helps, give the field a guard, or take "
        "`atomic` away.",
    ),
    Rule(
        "step-in-a-loop",
        "a step that can't be moved, made each time round",
        "Hold a lock around the loop that makes the step a mover, as the notes say. Or make the step once.",
    ),
    Rule(
        "compound-call",
        "a call of a method that is compound itself",
        "The called method promises nothing: others may come in while it runs. Hold its locks around the call, or make "
        "it atomic.",
    ),
    Rule(
        "overriding-method",
        "a method that overrides this one is more",
        "A call of this method may run the overriding one. Mend that one, or promise less here.",
    ),
    Rule(
        "not-well-formed",
        "the source is no well-formed program",
        "Only the first fault of a source is told. Mend it, and check again: docs/repairs.md has a row for each.",
    ),
    Rule(
        "unguarded-field",
        "a field that is written, and that nothing guards",
        "Write `guarded_by LOCK` behind the field, and hold that lock at each access. Where the field is written once, "
        "in the constructor, make it `final`.",
        "warning",
    ),
    Rule(
        "unicode-escape",
        "a unicode escape, which Java reads within comments, too",
        "Write the character itself, or put a second backslash before the first. In a comment, `\\u002a/` ends the "
        "comment in Java.",
        "warning",
    ),
]
IDS = [rule.name for rule in RULES]
# readers hold a line's number in 32 bits
MOST_LINES = 2**31 - 1
# how the notes of a rule begin: lines of `atomic-java` have no codes
WORDS = tuple(
    (rule, re.compile(words))
    for rule, words in (
        ("guard-unnamed", r".* is guarded (for writing )?by a lock that has no name here"),
        ("guard-not-held", r".* is guarded (for writing )?by "),
        ("required-unnamed", r"calls .*, which requires .*: that has no name here"),
        ("required-not-held", r"calls .*, which requires "),
        ("calls-an-error", r"calls (.*, which|a method that) is an error itself"),
        ("step-in-a-loop", r"(atomic|compound) step: .*\nthis loop makes it each time round"),
        ("compound-call", r"compound step: .*\ninside it another thread may come in"),
        ("two-steps", r"(atomic|compound) step: "),
        ("overriding-method", r".* overrides it, and is "),
    )
)


class Texts:
    """The texts of files, each file read once."""

    def __init__(self) -> None:
        self.known: dict[str, bytes] = {}
        self.lines: dict[str, list[bytes]] = {}

    def data(self, name: str) -> bytes:
        if name not in self.known:
            self.known[name] = data_of(name)
        return self.known[name]

    def line(self, name: str, number: int) -> Optional[bytes]:
        """A line of a file, counted from 1; None where there is none."""
        if name not in self.lines:
            self.lines[name] = self.data(name).split(b"\n")
        lines = self.lines[name]
        return lines[number - 1] if 0 < number <= len(lines) else None


def data_of(name: str) -> bytes:
    # a name from standard input may be one of a pipe, which would never end
    if not os.path.isfile(name):
        return b""
    try:
        with open(name, "rb") as file:
            return file.read()
    except OSError:
        return b""


class Place(NamedTuple):
    """A place in a file: lines from 1, columns in characters from 1, and where the word that begins there ends; None
    where it isn't known."""

    file: str
    line: Optional[int]
    column: Optional[int]
    end: Optional[int]


def place_of(fact: Fact, texts: Texts) -> Place:
    if not 0 < fact.line <= MOST_LINES:
        return Place(fact.file, None, None, None)
    line = texts.line(fact.file, fact.line)
    if line is None or fact.column < 1:
        return Place(fact.file, fact.line, fact.column or None, None)
    column = len(line[: fact.column - 1].decode("utf-8", "replace")) + 1
    word = re.match(rb"\w+", line[fact.column - 1 :])
    return Place(fact.file, fact.line, column, column + (len(word[0]) if word else 1))


@dataclass
class Result:
    """A refused method, or a source that is no program."""

    rule: str
    message: str
    place: Place
    # the method's name, and the other notes, each with its text
    related: list[tuple[Place, str]] = field(default_factory=list)

    @property
    def level(self) -> str:
        return RULES[IDS.index(self.rule)].level

    def helps(self) -> list[str]:
        """What is said of the result's own place besides its message."""
        return [text for place, text in self.related[1:] if is_same(place, self.place)]

    def others(self) -> list[tuple[Place, list[str]]]:
        """The other places of notes, each with all that is said of it."""
        found: dict[tuple[Optional[int], Optional[int]], tuple[Place, list[str]]] = {}
        for place, text in self.related[1:]:
            if not is_same(place, self.place):
                found.setdefault((place.line, place.column), (place, []))[1].append(text)
        return list(found.values())


def is_same(one: Place, other: Place) -> bool:
    return (one.line, one.column) == (other.line, other.column)


def result_of(group: list[Fact], texts: Texts) -> Result:
    head, notes = group[0], group[1:]
    main = notes[0] if notes else head
    message = ": ".join(dict.fromkeys([head.text, main.text]))
    related = [head, *notes[1:]] if notes else []
    told = [(place_of(fact, texts), fact.text) for fact in related]
    return Result(rule_of(head, notes), message, place_of(main, texts), told)


def rule_of(head: Fact, notes: list[Fact]) -> str:
    """The rule of an explanation: the code of its first line, or of what lacks a lock. Where the lines have no codes,
    it is what the notes say; and where these say nothing, the source is no program."""
    code = notes[0].code if head.code == "lock-error" and notes else head.code
    told = "\n".join(note.text for note in notes)
    return code if code in IDS else next((rule for rule, words in WORDS if words.match(told)), "not-well-formed")


# Where results come from.


def standard_input() -> bytes:
    if sys.stdin is None:
        raise Failed("standard input is closed")
    return sys.stdin.buffer.read()


def names_from_input() -> list[str]:
    """Names that each end with a zero byte, as `git ls-files -z` and `find -print0` write them."""
    return [os.fsdecode(name) for name in standard_input().split(b"\0") if name]


def results_of_files(names: Iterable[str]) -> list[Result]:
    texts = Texts()
    found = []
    for name in names:
        found += results_of(explanations(name, 0, 1, 2), texts)
        found += [warning_of(fact, texts) for fact in warnings_of(name, texts.data(name))]
    return found


def results_of_input() -> list[Result]:
    """Of lines of `atomic_why` on standard input."""
    text = standard_input().decode("utf-8", "surrogateescape")
    return results_of(explained(facts(text)), Texts())


def results_of(groups: Iterable[list[Fact]], texts: Texts) -> list[Result]:
    return [result_of(group, texts) for group in groups if group[0].word in ("error", "warning")]


def warning_of(fact: Fact, texts: Texts) -> Result:
    return Result("unicode-escape", fact.text, place_of(fact, texts))
