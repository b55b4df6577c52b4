#!/usr/bin/env python3
"""Computes the definitions of crates (crates/CRATE/specs/*.antt) without any proof, in a second: a small evaluator of
the part of antt that they are written in, functions by clauses on data, records, numbers, lists and maps.

  check  computes both sides of each clause `left ≡ right` of the examples, which are the functions without a body in
         the crates named here, or in those whose names end in `_examples`. It prints the clauses whose sides differ,
         and counts those that it can't compute, as they are about all programs or about types
  cover  prints the clauses and branches of the definitions of a crate, or of one of its files, that no example of any
         crate computes

It proves nothing, and the checker alone says what holds. It is here to find missing examples, and for
bench/mutate.py. Terms are read in definition_terms.py, files in definition_files.py; definition_compiler.py makes
Python of them, over the values of definition_values.py; definition_world.py has all files of a checkout.
"""
from __future__ import annotations

import re
import sys
import threading
from collections.abc import Callable, Iterable, Iterator
from pathlib import Path
from typing import Optional

from command_line import words_of
from definition_compiler import Compiler
from definition_files import File
from definition_terms import Parser, Stuck, Term, Unreadable
from definition_values import Map, Record, Value, from_list, to_list
from definition_world import TOP, World

__all__ = [
    "TOP",
    "Compiler",
    "Example",
    "Parser",
    "Stuck",
    "Unreadable",
    "World",
    "all_examples",
    "cited_from",
    "compute",
]
__all__ += ["evaluate", "is_same", "module_of", "specs", "with_deep_stack"]

WORD = re.compile(r"[^\W\d][\w'\-]*(?:\.[^\W\d][\w'\-]*)?|◌\S*◌")


class Example:
    """A clause `left ≡ right` of a function without a body, with its file and its name."""

    def __init__(self, file: File, function: str, clause: str, text: str) -> None:
        self.file, self.function, self.clause, self.text = file, function, clause, text
        # what was passed when it was computed, both sides, or why it can't be
        self.points: set[int] = set()
        self.sides: tuple[Value, Value] = (None, None)
        self.why: Optional[Exception] = None

    def label(self) -> str:
        return f"{self.file.path.parent.parent.name}: {self.function}: {self.clause}"


def braces(text: str, at: int) -> int:
    """The end of the bracket that opens at this place."""
    depth = 0
    for i in range(at, len(text)):
        depth += {"{": 1, "}": -1}.get(text[i], 0)
        if depth == 0:
            return i
    raise Unreadable("braces")


def examples_of(path: Path, text: Optional[str] = None) -> Iterator[Example]:
    text = text or path.read_text()
    file = File(path, text)
    for use in re.findall(r"^ghost use [^;]+;", text, re.M):
        file.use(use)
    for function in re.finditer(r"^pub fn (\w+)\(\)\n((?: {4}.*\n)+?)\{\}", text, re.M):
        body, at = function.group(2), 0
        while True:
            clause = re.compile(r"\s+ensures (?:(\w+) )?\{").match(body, at)
            if not clause:
                break
            end = braces(body, clause.end() - 1)
            yield Example(file, function.group(1), clause.group(1) or "", body[clause.end() : end].strip())
            at = end + 1


def without_binders(text: str) -> tuple[list[str], str]:
    """The term behind `(x y : A) →`, and the names that are bound."""
    names: list[str] = []
    while True:
        match = re.match(r"\(([^():]+) : ", text)
        if not match:
            return names, text
        end = matching(text)
        rest = text[end + 1 :].lstrip()
        if not rest.startswith(("→", "(")):
            return names, text
        if "→" in text[match.end() : end] or "Held" in text[match.end() : end]:
            raise Unreadable("a function that isn't known")
        names += match.group(1).split()
        text = rest[1:].lstrip() if rest.startswith("→") else rest


def sides(text: str) -> tuple[list[str], Term, Term]:
    depth = 0
    for i, c in enumerate(text):
        depth += {"(": 1, "{": 1, ")": -1, "}": -1}.get(c, 0)
        if depth == 0 and c in "→×⊎":
            raise Unreadable("no equation")
    names, text = without_binders(text)
    text = text.strip()
    while text.startswith("(") and matching(text) == len(text) - 1:
        text = text[1:-1].strip()
    term = Parser(text).whole()
    if term[0] != "op" or term[1] != "≡":
        raise Unreadable("no equation")
    return names, term[2], term[3]


def matching(text: str) -> int:
    """The end of the bracket that a text begins with."""
    depth = 0
    for i, c in enumerate(text):
        depth += {"(": 1, ")": -1}.get(c, 0)
        if depth == 0:
            return i
    return -1


def compute(world: World, example: Example) -> tuple[Value, Value]:
    """Both sides of an example."""
    bound = example.text.startswith("(")
    names, left, right = sides_bound(example.text) if bound else sides(example.text)
    compiler = Compiler(world, example.file)
    env = {name: compiler.constant(("?", name)) for name in names}
    first, second = compiler.expression(left, env, 0), compiler.expression(right, env, 0)
    found: tuple[Value, Value] = eval(f"({first}, {second})", compiler.scope)
    return found


def sides_bound(text: str) -> tuple[list[str], Term, Term]:
    names, rest = without_binders(text)
    _, left, right = sides(rest)
    return names, left, right


def evaluate(world: World, example: Example) -> Optional[bool]:
    """Whether both sides are equal; None where they can't be computed. Notes which points were computed."""
    world.used.clear()
    try:
        left, right = compute(world, example)
    except (Stuck, Unreadable, TypeError, IndexError, KeyError, AttributeError, RecursionError) as error:
        example.why = error
        return None
    example.points = set(world.used)
    example.sides = (left, right)
    return is_same(left, right)


def is_same(a: Value, b: Value) -> bool:
    """Whether two values are equal; a number is no boolean."""
    if isinstance(a, bool) or isinstance(b, bool):
        return a is b
    if isinstance(a, tuple) and isinstance(b, tuple):
        while a and b and a[0] == "∷" and b[0] == "∷":
            if not is_same(a[1], b[1]):
                return False
            a, b = a[2], b[2]
        return len(a) == len(b) and all(is_same(x, y) for x, y in zip(a, b))
    if isinstance(a, Record) and isinstance(b, Record):
        return a.keys() == b.keys() and all(is_same(a[k], b[k]) for k in a)
    return bool(a == b)


def crates_of_examples() -> list[str]:
    return sorted(p.name for p in (TOP / "crates").iterdir() if p.name.endswith("examples"))


def all_examples(crates: Iterable[str]) -> Iterator[Example]:
    for crate in crates:
        for path in sorted((TOP / "crates" / crate / "src").rglob("*.rt")):
            yield from examples_of(path)


def shown(value: Value) -> str:
    if isinstance(value, Record):
        return "record { " + "; ".join(f"{k} = {shown(v)}" for k, v in value.items()) + " }"
    if isinstance(value, tuple) and value and value[0] in ("∷", "[]"):
        items = from_list(value)
        if items and all(isinstance(i, int) and 9 <= i < 127 for i in items):
            return repr(bytes(items).decode())
        return "[" + ", ".join(map(shown, items)) + "]"
    if isinstance(value, tuple) and value and isinstance(value[0], str):
        if value[0] == "×":
            return "(" + ", ".join(map(shown, value[1:])) + ")"
        return str(value[0]) if len(value) == 1 else "(" + " ".join([value[0]] + [shown(v) for v in value[1:]]) + ")"
    if isinstance(value, Map):
        return "map " + shown(to_list([("×", k, v) for k, v in value.entries]))
    return str(value)


def check(crates: Iterable[str], tells_all: bool) -> int:
    world, differ = World(), 0
    counts: dict[Optional[bool], int] = {}
    for example in all_examples(crates):
        same = evaluate(world, example)
        counts[same] = counts.get(same, 0) + 1
        if same is False:
            differ += 1
            print(f"differs  {example.label()}")
            print(f"    left:  {shown(example.sides[0])}\n    right: {shown(example.sides[1])}")
        elif same is None and tells_all:
            print(f"not computed  {example.label()}: {example.why!r}")
    print(f"{counts.get(True, 0)} equal, {counts.get(False, 0)} differ, {counts.get(None, 0)} not computed")
    return 1 if differ else 0


def specs(name: str) -> Iterator[Path]:
    crate, _, only = name.partition("/")
    for path in sorted((TOP / "crates" / crate / "specs").glob("*.antt")):
        if not only or path.stem == only:
            yield path


def module_of(path: Path) -> str:
    return f"Rattle.{path.parent.parent.name}.specs.{path.stem}"


def cited_from(world: World, paths: Iterable[Path]) -> set[tuple[Path, str]]:
    """The items that those of these files cite, directly or through others, each with the path of its file."""
    waiting = [(module_of(path), name) for path in paths for name in file_of(world, path).items]
    seen: set[tuple[Path, str]] = set()
    while waiting:
        module, name = waiting.pop()
        file = world.file(module)
        if file is None or (file.path, name) in seen:
            continue
        if name in file.items:
            seen.add((file.path, name))
            waiting += cited_in(file, module, file.items[name])
        elif name in file.names:
            waiting.append(file.names[name])
    return seen


def cited_in(file: File, module: str, text: str) -> Iterator[tuple[str, str]]:
    """The modules and names that a text of a file cites."""
    for word in WORD.findall(text):
        head, _, field = word.partition(".")
        if head in file.aliases and field:
            yield file.aliases[head], field
        elif head in file.names:
            yield file.names[head]
        elif head in file.items:
            yield module, head


def file_of(world: World, path: Path) -> File:
    file = world.file(module_of(path))
    assert file is not None, f"there is no {path}"
    return file


def compile_all(world: World, path: Path) -> None:
    """Compiles each definition of a file, so that each of its points is known; those outside of the part that is read
    are left out."""
    file = file_of(world, path)
    for definition in file.definitions.values():
        try:
            if definition.clauses and not definition.is_type:
                world.function(file, definition)
        except Unreadable:
            pass


def crates_with_code() -> list[str]:
    return [path.name for path in sorted((TOP / "crates").iterdir()) if (path / "src").is_dir()]


def cover(names: Iterable[str], everything: bool) -> int:
    world = World()
    times: dict[int, int] = {}
    paths = [path for name in names for path in specs(name)]
    for path in paths:
        compile_all(world, path)
    for example in all_examples(crates_with_code()):
        if evaluate(world, example):
            for p in example.points:
                times[p] = times.get(p, 0) + 1
    missing = 0
    for (path, at, kind, _), point in sorted(world.points.items(), key=lambda p: (str(p[0][0]), p[0][1], p[0][2])):
        if path not in paths:
            continue
        line = path.read_text().split("\n")[at].strip()
        told = f"{path.parent.parent.name}/{path.stem}:{at + 1} {kind if kind != 'clause' else ''} {line[:150]}"
        if point not in times:
            missing += 1
            print(f"never   {told}")
        elif everything:
            print(f"{times[point]:6}  {told}")
    print(f"{missing} are computed in no example")
    return 0


def main() -> int:
    parser = words_of(__doc__)
    parser.add_argument("what", choices=["check", "cover"])
    parser.add_argument(
        "crates", metavar="CRATE[/FILE]", nargs="*", help="for `check` the crates that end in _examples"
    )
    parser.add_argument("-v", action="store_true", help="check: tell also what can't be computed, and why")
    parser.add_argument("--all", action="store_true", help="cover: tell also how often the others are computed")
    given = parser.parse_args()
    if given.what == "check":
        return check(given.crates or crates_of_examples(), given.v)
    if not given.crates:
        parser.error("cover wants a crate")
    return cover(given.crates, given.all)


def with_deep_stack(run: Callable[[], int]) -> int:
    """Runs with room for deep recursion, and gives the status that it ends with."""
    sys.setrecursionlimit(1_000_000)
    threading.stack_size(512 << 20)
    found: list[int] = []

    def inside() -> None:
        try:
            found.append(run())
        except SystemExit as end:
            if isinstance(end.code, str):
                print(end.code, file=sys.stderr)
            found.append(end.code if isinstance(end.code, int) else 0 if end.code is None else 1)

    thread = threading.Thread(target=inside)
    thread.start()
    thread.join()
    return found[0] if found else 1


if __name__ == "__main__":
    sys.exit(with_deep_stack(main))
