"""Java sources of the tests: how several stand in one run, what is expected of them, and the lines that atomic-java
writes.

A run of atomic-java costs the start of a JVM, so that tests are judged many at a time. Each source is copied into a
package of its own, whose clause goes in front of its first line: the places stay as they are.

What is expected stands in the source. A comment `// refused` at the end of a line means that an error is told at this
line, and `// accepted` that none is.
"""
import os
import re
import subprocess
from dataclasses import dataclass, field
from pathlib import Path
from typing import TypeVar

TOP = Path(__file__).resolve().parent.parent
PROGRAM = TOP / "java" / "out" / "atomic-java"
LINE = re.compile(r"(.*?):(\d+):(\d+): (error|note): (.*)")
MARK = re.compile(r"// (refused|accepted)\b(?:: (.*))?$")
Item = TypeVar("Item")
PACKAGE = re.compile(r"^package [\w.]+;\s*", re.MULTILINE)


@dataclass(frozen=True)
class Line:
    """A line that atomic-java writes: the file as it was given, the place, `error` or `note`, and the text."""

    file: str
    line: int
    column: int
    kind: str
    text: str


@dataclass(frozen=True)
class Answer:
    """What a run of atomic-java gave: its status, its lines, and everything else that it wrote."""

    status: int
    lines: list[Line]
    rest: list[str] = field(default_factory=list)

    def errors_of(self, file: Path) -> list[Line]:
        """The errors of one file."""
        return [line for line in self.lines if line.kind == "error" and line.file == str(file)]


def run(options: list[str], files: list[Path], program: Path = PROGRAM) -> Answer:
    """One run of atomic-java over these files."""
    done = subprocess.run([str(program), *options, *map(str, files)], capture_output=True, check=False)
    lines, rest = [], []
    for text in (done.stdout + done.stderr).decode(errors="replace").splitlines():
        found = LINE.fullmatch(text)
        if found:
            lines.append(Line(found[1], int(found[2]), int(found[3]), found[4], found[5]))
        elif text:
            rest.append(text)
    return Answer(done.returncode, lines, rest)


def java_version() -> int:
    """Which Java javac is of."""
    told = subprocess.run(["javac", "-version"], capture_output=True, check=True)
    return int((told.stdout + told.stderr).decode().split()[1].split(".")[0])


def marks(text: str) -> dict[int, tuple[str, str]]:
    """The marks of a source by their lines: `refused` or `accepted`, and what stands behind the colon."""
    found = ((number, MARK.search(line)) for number, line in enumerate(text.splitlines(), 1))
    return {number: (mark[1], mark[2] or "") for number, mark in found if mark}


def write_into_package(text: str, package: str, folder: Path, name: str) -> Path:
    """A copy of a source in a package of its own; line numbers stay."""
    path = folder.joinpath(*package.split("."), name)
    os.makedirs(path.parent, exist_ok=True)
    path.write_text(f"package {package}; " + PACKAGE.sub("", text, count=1), encoding="utf-8")
    return path


def batches(items: list[Item], size: int) -> list[list[Item]]:
    """The items in lists of at most so many."""
    return [items[first : first + size] for first in range(0, len(items), size)]
