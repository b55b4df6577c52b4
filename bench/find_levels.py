#!/usr/bin/env python3
"""Looks for levels of the classes of a source for which `PROGRAM levels` says `ordered`, and writes their text to
standard output, or to OUT. Each class has a level of its own, so a line `C.m: takes D under level N` says which class
has to come before D: the one with level N. The class D is raised above it, and what has to come after D above D. That
goes on until the program is ordered, or until classes would have to come before themselves. Then the circle is told:
each of its classes is taken while a lock of the one before it may be held, so no levels order the program. The exit
status is 1 then, and 2 where the source is refused.

Nothing rests on this script: what it finds is judged by `levels`.
"""
from __future__ import annotations

import re
import subprocess
import sys
import tempfile
from typing import Optional

from command_line import PROGRAM, program_of, words_of

# of each class the classes that have to come after it, with the method that says so
After = dict[str, dict[str, str]]
# two classes of a circle, and the method that takes the second while the first may be held
Link = tuple[str, str, str]

CLASS = re.compile(r"\bclass\s+([A-Za-z_]\w*)(?:\s+extends\s+([A-Za-z_]\w*))?")
COMMENT = re.compile(r"/\*.*?\*/|//[^\n\r]*", re.S)
TAKES = re.compile(r"(\w+\.\w+): takes (\w+) under level (\d+)\n")


def classes_of(source: str) -> dict[str, str]:
    """The class of which each class has the level: the furthest one that it extends."""
    above = dict(CLASS.findall(COMMENT.sub(" ", source)))

    def top(name: str) -> str:
        seen: set[str] = set()
        while above.get(name) and name not in seen:
            seen.add(name)
            name = above[name]
        return name

    return {name: top(name) for name in above}


def in_order(names: list[str], after: After) -> list[str]:
    """The names so that each stands before those that come after it, else as before."""
    placed: list[str] = []

    def place(name: str) -> None:
        if name not in placed:
            for other in names:
                if name in after.get(other, {}):
                    place(other)
            placed.append(name)

    for name in names:
        place(name)
    return placed


def way(after: After, start: str, end: str) -> Optional[list[str]]:
    """Classes from one to another, each of which comes after the one before it; none where no way leads there."""
    ways, left = {start: [start]}, [start]
    while left:
        name = left.pop(0)
        if name == end:
            return ways[name]
        for other in after.get(name, {}):
            if other not in ways:
                ways[other] = ways[name] + [other]
                left.append(other)
    return None


def text_of(tops: dict[str, str], order: list[str]) -> str:
    return "".join(f"{name} {order.index(top) + 1}\n" for name, top in tops.items())


def answer(program: str, file: str, text: str) -> tuple[int, str]:
    with tempfile.NamedTemporaryFile("w", suffix=".levels") as levels:
        levels.write(text)
        levels.flush()
        done = subprocess.run([program, "levels", file, levels.name], stdout=subprocess.PIPE, check=False)
    return done.returncode, done.stdout.decode(errors="replace")


def search(program: str, file: str, tops: dict[str, str]) -> tuple[str, list[Link]]:
    """The text of levels that order the program, or a circle with the methods that take its classes."""
    after: After = {}
    order = sorted(set(tops.values()))
    while True:
        status, line = answer(program, file, text_of(tops, order))
        if status == 0:
            return text_of(tops, order), []
        found = TAKES.fullmatch(line)
        if status != 14 or not found:
            sys.stdout.write(line)
            sys.exit(2)
        held, taken = order[int(found[3]) - 1], tops[found[2]]
        after.setdefault(held, {})[taken] = found[1]
        back = way(after, taken, held)
        if back:
            return "", [(first, second, after[first][second]) for first, second in zip([held] + back, back)]
        order = in_order(order, after)


def main() -> None:
    parser = words_of(__doc__)
    parser.add_argument("program", metavar="PROGRAM", type=program_of, help=PROGRAM)
    parser.add_argument("file", metavar="FILE", help="a source")
    parser.add_argument("out", metavar="OUT", nargs="?", help="write the levels here")
    given = parser.parse_args()
    with open(given.file, encoding="utf-8", errors="replace") as source:
        tops = classes_of(source.read())
    text, circle = search(given.program, given.file, tops)
    if circle:
        print("circle: " + " -> ".join([circle[0][0]] + [second for _, second, _ in circle]))
        for first, second, method in circle:
            print(f"{method}: takes {second} while {first} may be held")
        sys.exit(1)
    if given.out is None:
        sys.stdout.write(text)
        return
    with open(given.out, "w", encoding="utf-8") as out:
        out.write(text)


if __name__ == "__main__":
    main()
