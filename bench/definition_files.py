"""Files of definitions: what each brings in, its functions by clauses, and its constructors.

    file = read_antt(path, text)
"""
from __future__ import annotations

import re
from pathlib import Path
from typing import Any, NamedTuple

# a module within a file: its line, and its parameters with their types
Module = tuple[int, list[tuple[str, str]]]
# a clause: its line, its left side behind the name, and its right side
Clause = tuple[int, str, str]


class Line(NamedTuple):
    """A line of a file without its comment: how far in it stands, its number and its text."""

    depth: int
    at: int
    text: str


class Definition:
    """A function by clauses: its parameters from modules around it, and its clauses with the lines on which they
    stand."""

    def __init__(self, name: str, modules: list[Module]) -> None:
        self.name, self.modules = name, modules
        self.clauses: list[Clause] = []
        # what it is compiled to, once that was asked for
        self.function: Any = None
        self.is_type, self.result = False, ""
        self.types: list[str] = []

    def note_signature(self, whole: str) -> None:
        self.is_type = bool(re.search(r"Type 0$|: .*≡", whole))
        self.types = argument_types(whole[whole.index(" : ") + 3 :])
        self.result = whole.rsplit("→", 1)[-1].rsplit(" : ", 1)[-1].strip()


class File:
    """A file of definitions or of examples: what it brings in by `use`, and its own definitions and constructors."""

    def __init__(self, path: Path, text: str) -> None:
        self.path, self.text = path, text
        self.names: dict[str, tuple[str, str]] = {}
        self.aliases: dict[str, str] = {}
        self.definitions: dict[str, Definition] = {}
        self.constructors: dict[str, list[str]] = {}
        # the whole text of each item: of a definition its signature and clauses, of a record or a data type its fields
        # or constructors
        self.items: dict[str, str] = {}

    def use(self, line: str) -> None:
        line = line.strip().rstrip(";")
        match = re.match(r"(?:pub |ghost )*use ([^{ ]+?)(?:\.\{(.*)\})?(?: as (\w+))?$", line, re.S)
        if not match:
            return
        module, items, alias = match.groups()
        if items is None:
            self.aliases[alias or module.split(".")[-1]] = module
            return
        for part in re.split(r",\s*(?![^{]*\})", items):
            part = part.strip()
            if part:
                name, _, other = part.partition(" as ")
                self.names[(other or name).strip()] = (module, name.strip())


def argument_types(signature: str) -> list[str]:
    """The types of the arguments in a signature, one for each, as they are written."""
    parts, depth, start = [], 0, 0
    for at, c in enumerate(signature):
        depth += {"(": 1, "{": 1, ")": -1, "}": -1}.get(c, 0)
        if c == "→" and depth == 0:
            parts.append(signature[start:at].strip())
            start = at + 1
    found: list[str] = []
    for part in parts:
        groups = re.findall(r"\(([^(){}:]+) : ((?:[^()]|\([^()]*\))*)\)", part)
        if groups and part.startswith(("(", "{")):
            for names, its in groups:
                found += [its.strip()] * len(names.split())
        elif not part.startswith("{"):
            found.append(part)
    return found


DECLARES = re.compile(r"^(?:abbrev |unfoldable )?(?:pub )?([^\W\d][\w'\-]*) : ")
CLAUSE = re.compile(r"^([^\W\d][\w'\-]*)((?: .*?)??) =(?:\s|$)(.*)$", re.S)


OPENS = re.compile(r"module _ ?(.*) where$")
PARAMETER = re.compile(r"[({]([^:(){}]+) : ((?:[^()]|\([^()]*\))*)[)}]")
CONSTRUCTOR = re.compile(r"\s*([^\W\d][\w'\-]*) : (.*)$")
TYPE = re.compile(r"(?:pub )?(data|record) ([^\s:]+)")


class Reader:
    """Reads a file, block by block: each item with the lines that stand further in."""

    def __init__(self, path: Path, text: str) -> None:
        self.file = File(path, text)
        self.lines: list[Line] = []
        for at, line in enumerate(text.split("\n")):
            bare = line.split(" -- ")[0] if not line.lstrip().startswith("--") else ""
            if bare.strip():
                self.lines.append(Line(len(bare) - len(bare.lstrip()), at, bare.rstrip()))

    def block(self, place: int, depth: int, modules: list[Module]) -> int:
        """The items from this line on that stand so far in; the line behind them."""
        while place < len(self.lines) and self.lines[place].depth >= depth:
            line = self.lines[place]
            text = line.text.strip()
            opener = OPENS.match(text)
            if opener or text in ("abbrev mutual", "mutual"):
                inside = [*modules, (line.at, parameters_in(opener[1]))] if opener else modules
                place = self.inner(place, inside)
                continue
            behind = self.behind(place)
            whole = "\n".join(own.text for own in self.lines[place:behind]).strip()
            self.item(whole, self.lines[place:behind], modules)
            place = behind
        return place

    def inner(self, place: int, modules: list[Module]) -> int:
        """The block that a line opens; the line behind it."""
        inner = self.lines[place + 1].depth if place + 1 < len(self.lines) else 0
        return self.block(place + 1, inner, modules) if inner > self.lines[place].depth else place + 1

    def behind(self, place: int) -> int:
        """The line behind an item: the first that stands no further in, but for closing brackets."""
        depth, behind = self.lines[place].depth, place + 1
        while behind < len(self.lines):
            line = self.lines[behind]
            if line.depth <= depth and line.text.lstrip()[0] not in "})":
                break
            behind += 1
        return behind

    def item(self, whole: str, lines: list[Line], modules: list[Module]) -> None:
        type_ = TYPE.match(whole)
        if re.match(r"(?:pub )?use ", whole):
            self.file.use(whole)
        elif type_:
            self.file.items[type_[2]] = whole
            if type_[1] == "data":
                self.constructors(lines[1:])
        elif not whole.startswith(("pub mod", "mod ", "unfolding")):
            self.function(whole, lines[0].at, modules)

    def constructors(self, lines: list[Line]) -> None:
        for line in lines:
            found = CONSTRUCTOR.match(line.text)
            if found:
                self.file.constructors[found[1]] = argument_types(found[2])
                self.file.items[found[1]] = found[2]

    def function(self, whole: str, at: int, modules: list[Module]) -> None:
        """A signature or a clause."""
        declares = DECLARES.match(whole)
        if declares and not CLAUSE.match(whole.split("\n")[0]):
            name = declares[1]
            self.file.items[name] = whole
            self.file.definitions.setdefault(name, Definition(name, modules)).note_signature(whole)
            return
        clause = CLAUSE.match(whole)
        if clause and clause[1] in self.file.definitions:
            self.file.items[clause[1]] += "\n" + whole
            self.file.definitions[clause[1]].clauses.append((at, clause[2].strip(), clause[3]))


def parameters_in(text: str) -> list[tuple[str, str]]:
    """The parameters of a module, each with its type."""
    return [(name, its) for names, its in PARAMETER.findall(text) for name in names.split()]


def read_antt(path: Path, text: str) -> File:
    reader = Reader(path, text)
    reader.block(0, 0, [])
    return reader.file
