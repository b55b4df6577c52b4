"""Sources of the language as Java.

    java_of(data)                     the text itself, without the words that Java lacks
    java_of(data, annotated=True)     with annotations in place of these words
    java_of(data, "..", "Base")       with this in front of it, and with this class above those that extend no other one

The text keeps its lines, blanks and comments. Besides these words only this differs: methods are public, classes
aren't, and a constructor hands the inherited final fields up (`super(..)`), which it assigns itself in the language.
"""
import re
from dataclasses import dataclass, field
from typing import Callable

from jvm_reading import Class, Method, Reader


@dataclass
class Constructor:
    """Where its body stands, and what it assigns: the field's name and the parameter's, one after the other."""

    begin: int
    end: int
    sets: list[tuple[str, str]]


@dataclass
class Edits:
    """Places of a text, each with what stands there in its place."""

    found: list[tuple[int, int, str]] = field(default_factory=list)

    def replace(self, begin: int, end: int, text: str = "") -> None:
        self.found.append((begin, end, text))

    def applied(self, text: str) -> str:
        pieces, place = [], 0
        for begin, end, new in sorted(self.found, key=lambda edit: edit[:2]):
            pieces += [text[place:begin], new]
            place = end
        return "".join(pieces) + text[place:]


class Rewriter(Reader):
    """Reads a text by the grammar, and notes what Java says otherwise. Names need no declaration."""

    def __init__(self, text: str, base: str, annotated: bool) -> None:
        super().__init__(text)
        self.text, self.base, self.annotated, self.edits = text, base, annotated, Edits()
        self.constructors: list[Constructor] = []
        self.of_class: dict[Class, list[Constructor]] = {}

    def class_(self) -> Class:
        begin = self.here()
        if self.sees("public"):
            self.edits.replace(begin, begin + len("public"))
        self.constructors = []
        cls = super().class_()
        self.of_class[cls] = self.constructors
        if self.base and not cls.above_name:
            behind = cls.at + len(cls.name)
            self.edits.replace(behind, behind, f" extends {self.base}")
        return cls

    def spanned(self, read: Callable[[], list[str]]) -> tuple[int, int, list[str]]:
        """Where a clause begins, behind the token before it, and ends, and its lock."""
        begin = self.behind()
        names = read()
        return begin, self.behind(), names

    def annotate(self, place: int, text: str) -> None:
        if self.annotated:
            self.edits.replace(place, place, text + " ")

    def field(self, cls: Class, final: bool) -> None:
        begin, first = self.here(), self.place
        super().field(cls, final)
        guard = cls.fields[-1].guard
        if guard:
            word = self.begins[first + 2]
            self.edits.replace(word, self.begins[self.place - 1])
            annotation = "WriteGuardedBy" if cls.fields[-1].writes_only else "GuardedBy"
            self.annotate(begin, f'@{annotation}("{".".join(guard)}")')

    def constructor(self) -> None:
        while not self.sees("{"):
            self.take()
        begin, sets = self.here(), []
        self.take("{")
        while not self.skip("}"):
            self.take("this", ".")
            name = self.take()
            self.take("=")
            sets.append((name, self.take()))
            self.take(";")
        self.constructors.append(Constructor(begin, self.behind(), sets))

    def method(self, cls: Class, begin: int) -> None:
        if not self.text.startswith("public", begin):
            self.edits.replace(begin, begin, "public ")
        first = self.place
        super().method(cls, begin)
        method = cls.methods[-1]
        if method.atomic_at is not None:
            self.edits.replace(method.atomic_at, method.atomic_at + len("atomic"))
            self.annotate(begin, "@Atomic")
        if method.requires:
            self.drop_requires(first, begin, method)

    def drop_requires(self, first: int, begin: int, method: Method) -> None:
        word = self.tokens.index("requires", first)
        body = self.tokens.index("{", word)
        self.edits.replace(self.begins[word], self.begins[body])
        locks = [f'"{".".join(lock)}"' for lock in method.requires]
        self.annotate(begin, f"@Holding({locks[0] if len(locks) == 1 else '{' + ', '.join(locks) + '}'})")

    def found(self, name: str) -> tuple[bool, str, int]:
        scope = next((s for s in reversed(self.scopes) if name in s), None)
        return scope[name] if scope else (False, "", 0)

    def hand_up(self, classes: list[Class]) -> None:
        """The bodies of constructors of classes that inherit final fields."""
        named: dict[str, Class] = {}
        for cls in classes:
            named.setdefault(cls.name, cls)
        for cls in classes:
            cls.above = named.get(cls.above_name)
        for cls, constructors in self.of_class.items():
            inherited = {f.name for c in cls.line()[1:] for f in c.fields if f.final}
            for constructor in constructors:
                if inherited:
                    self.edits.replace(constructor.begin, constructor.end, body_of(constructor, inherited))


def body_of(constructor: Constructor, inherited: set[str]) -> str:
    up = ", ".join(value for name, value in constructor.sets if name in inherited)
    own = "".join(f" this.{name} = {value};" for name, value in constructor.sets if name not in inherited)
    return f"{{ super({up});{own} }}"


def java_of(data: bytes, head: str = "", base: str = "", annotated: bool = False) -> str:
    """The source as Java. It is a program of the grammar; else `Unread` is raised."""
    text = data.decode("utf-8")
    reader = Rewriter(text, base, annotated)
    reader.hand_up(reader.program())
    return head + reader.edits.applied(text)


def is_escape(text: str) -> bool:
    """Whether Java reads a unicode escape in the text."""
    return re.search(r"(?<!\\)(?:\\\\)*\\u", text) is not None
