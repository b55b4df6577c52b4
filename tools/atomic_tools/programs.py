"""Runs `atomic`, `atomic_why` and `atomic_witness`, and hands on what they write.

The programs are those that the environment names (ATOMIC, ATOMIC_WHY, ATOMIC_WITNESS); else those that stand in
crates/ of the checkout that this package stands in, proved or not; else those in the path. What is read is told as it
was written: nothing here judges.
"""
from __future__ import annotations

import os
import shutil
import subprocess
import tempfile
from types import TracebackType
from typing import Optional, Type, Union

from .command import Failed
from .lines import Fact, by_parts, explained, facts
from .trees import Book

HERE = os.path.dirname(os.path.realpath(__file__))
CRATES = os.path.join(HERE, "..", "..", "crates")
CRATE_OF = {"atomic": "atomic_cli", "atomic_why": "atomic_why", "atomic_witness": "atomic_witness"}

Reply = tuple[int, str]


def program(name: str) -> Optional[str]:
    """The path of a program, None where there is none."""
    named = os.environ.get(name.upper())
    crate = CRATE_OF[name]
    built = [os.path.join(CRATES, crate, "out", made) for made in (crate, name.replace("_", "-") + "-unproved")]
    beside = [path for path in built if os.access(path, os.X_OK)]
    return named or (beside + [shutil.which(name) or ""])[0] or None


def ran(name: str, words: tuple[str, ...]) -> Reply:
    """The status and the text of a program."""
    path = program(name)
    if path is None:
        raise Failed(f"there is no program {name}: install it, or name it in {name.upper()}")
    try:
        done = subprocess.run([path, *words], capture_output=True, check=False)
    except OSError as error:
        raise Failed(f"cannot run {path}: {error.strerror}") from error
    return done.returncode, done.stdout.decode("utf-8", "surrogateescape")


def atomic(*words: str) -> Reply:
    return ran("atomic", words)


def atomic_why(*words: str) -> Reply:
    return ran("atomic_why", words)


def has_why() -> bool:
    return program("atomic_why") is not None


def witness_told(path: str, schedule_path: str) -> Reply:
    """What `atomic_witness` tells of a schedule of a source."""
    return ran("atomic_witness", (path, schedule_path))


def witness_sought(path: str) -> Reply:
    """The schedule that `atomic_witness` finds in a source, or that it finds none."""
    return ran("atomic_witness", (path,))


def has_witness() -> bool:
    return program("atomic_witness") is not None


class Written:
    """A text in a file of its own, for a program to read, while a `with` lasts."""

    def __init__(self, text: Union[str, bytes], name: str = "text") -> None:
        self.text = text if isinstance(text, bytes) else text.encode()
        self.name, self.folder = name, ""

    def __enter__(self) -> str:
        self.folder = tempfile.mkdtemp(prefix="atomic-")
        path = os.path.join(self.folder, self.name)
        try:
            with open(path, "wb") as file:
                file.write(self.text)
        except BaseException:
            shutil.rmtree(self.folder)
            raise
        return path

    def __exit__(
        self, _: Optional[Type[BaseException]], __: Optional[BaseException], ___: Optional[TracebackType]
    ) -> None:
        shutil.rmtree(self.folder)


def expected(answer: Reply, *statuses: int) -> str:
    """The text of an answer with one of these statuses; no other can be shown."""
    status, text = answer
    if status not in statuses:
        raise Failed(text.strip() or ended(status))
    return text


def ended(status: int) -> str:
    return f"a program ended by the signal {-status}" if status < 0 else f"a program ended with {status}"


def judged(path: str) -> Reply:
    """The status and the text of `check`, of a file that could be judged."""
    status, text = atomic("check", path)
    return status, expected((status, text), 0, 1, 2)


def explanations(path: str, *statuses: int) -> list[list[Fact]]:
    """What `atomic_why` says of a file, by methods."""
    return explained(facts(expected(atomic_why(path), *statuses), path))


def book_of(path: str) -> Book:
    text = expected(atomic("derive", path), 0)
    try:
        return Book(text)
    except (IndexError, ValueError) as error:
        raise Failed("`atomic derive` wrote no book") from error


class Answers:
    """What the programs say of a source.

    status, lines   those of `check` shown           the printed line of each method; of a refused source those
    without the promises, where no method is an error book            the book behind these, or None explanations
    the lines of `atomic_why`, by groups at_requires     of `atomic_why --all`: the facts of each method's parts, by
    their numbers; of a part that isn't there it says const
    """

    def __init__(self, path: str) -> None:
        self.status, text = judged(path)
        self.lines = text.split("\n")[:-1]
        self.shown: list[str] = []
        self.book: Optional[Book] = None
        self.explanations: list[list[Fact]] = []
        self.at_requires: Optional[dict[str, dict[int, Fact]]] = None
        if self.status in (1, 2) and has_why():
            self.explanations = explanations(path, 1, 2)

    def judge(self, path: str, without_promises: bytes) -> None:
        """Asks for all that there is of a well-formed source; without its promises where it doesn't keep them."""
        if self.status == 0:
            self.shown, self.book = self.lines, book_of(path)
        else:
            with Written(without_promises) as other:
                status, text = atomic("check", other)
                if status == 0:
                    self.shown, self.book = text.split("\n")[:-1], book_of(other)
        if has_why():
            self.at_requires = parts_told(path)

    def parts_of(self, method: str) -> Optional[dict[int, Fact]]:
        """What is told of a method's parts at its `requires`; None where nothing is."""
        return None if self.at_requires is None else self.at_requires.get(method, {})


def parts_told(path: str) -> dict[str, dict[int, Fact]]:
    text = expected(atomic_why("--all", path), 0, 2)
    try:
        return by_parts(facts(text, path))
    except ValueError as error:
        raise Failed("`atomic_why --all` wrote no list of parts") from error
