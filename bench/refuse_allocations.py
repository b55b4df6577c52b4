#!/usr/bin/env python3
"""Refuses each allocation of rows of every command in turn: the k-th, for k from 1 up to the first run in which none
is refused. Each answer has to be status 8 with nothing written, or the row's. PROGRAM is the built `atomic`, proved
or not; refuse.c is compiled by `cc` and preloaded into it. Without --all there is a row for each command and status,
with it come all rows of rows.py. With --why PROGRAM is the built `atomic_why`, and the rows are those of docs/why.md
and some more. With --rest all allocations behind the k-th are refused too. The exit status is 0 where no answer is
wrong.
"""
from __future__ import annotations

import collections
import concurrent.futures
import os
import re
import subprocess
import sys
import tempfile
from collections.abc import Iterable, Iterator
from typing import Optional

import row_parts
import rows
from command_line import HERE, count_of, program_of, words_of
from documents import source_of, table_rows

# the words of a command, its files (None where one isn't there), and its status
Row = tuple[str, list[Optional[bytes]], int]

WANTED = {"check": (0, 1, 2), "print": (0, 1), "run": (0, 3, 4), "serialise": (0, 1, 2, 3, 4, 5)}


def example(name: str) -> bytes:
    with open(os.path.join(HERE, "..", "examples", name), "rb") as file:
        return file.read()


def one_of_each(all_rows: Iterable[Row]) -> Iterator[Row]:
    """The first rows with each wanted status of a command; a row is the command's words, its files and the status."""
    seen = set()
    for command, files, status in all_rows:
        if status in WANTED.get(command, ()) and (command, status) not in seen:
            seen.add((command, status))
            yield command, files, status


def fixed_rows() -> list[Row]:
    """Worked rows as command, files and status; those that take the most steps are left to --all."""
    given: list[Row] = [(command, [bytes_of(source)], status) for command, source, status, _ in rows.rows(True, True)]
    for command, source, schedule, status, _ in rows.schedule_rows(True):
        given.append((command, [bytes_of(source), bytes_of(schedule)], status))
    return given


def bytes_of(text: row_parts.Text) -> bytes:
    return text if isinstance(text, bytes) else text.encode()


def more_rows() -> Iterator[Row]:
    """Rows of books and examples, of `serialise-open` and `generate`, and of words and files that end a call early."""
    counter, locked, twice = example("counter.java"), example("locked.java"), example("twice.java")
    schedule, book, wrong = example("counter.schedule"), example("locked.book"), example("locked_wrong.book")
    yield "check", [counter], 0
    yield "check", [example("append_locked.java")], 0
    yield "run", [counter, schedule], 0
    yield "serialise", [counter, schedule], 0
    yield "serialise", [b"?", schedule], 1
    yield "serialise", [twice, schedule], 2
    yield "serialise-open", [counter, schedule], 0
    yield "serialise-open", [counter, b"0*10 1*6"], 0
    yield "serialise-open", [counter, b"0*10 1 x"], 3
    yield "serialise-open", [counter, b"0*3 5"], 4
    yield "serialise-open", [twice, schedule], 2
    yield "serialise-open", [b"?", schedule], 1
    yield "generate 0", [], 0
    yield "generate 2", [], 0
    yield "generate 20", [], 0
    yield "generate 1000", [], 9
    yield "derive", [locked], 0
    yield "derive", [example("account_both.java")], 0
    yield "derive", [b"?"], 1
    yield "derive", [twice], 2
    yield "verify", [locked, book], 0
    yield "verify", [b"?", book], 1
    yield "verify", [locked, wrong], 11
    yield "verify", [locked, book[:-1]], 11
    yield "print", [example("account.java")], 0
    yield "print", [b"a"], 1
    yield "check", [None], 6
    yield "run", [counter, None], 6
    yield "check", [b" " * 262145], 10
    yield "check", [], 9
    yield "other", [], 9


def why_rows() -> Iterator[Row]:
    """Rows of `atomic_why`: the sources of docs/why.md, examples, and words and files that end a call early."""
    for row in table_rows("docs", "why.md"):
        if re.fullmatch(r"`\d+:\d+: .*`", row[0]):
            yield "", [source_of(row[-1])], 2
    for command in ("", "--all"):
        yield command, [example("account.java")], 2
        yield command, [example("account_repaired.java")], 0
        yield command, [b"?"], 1
        yield command, [None], 6
        yield command, [b" " * 262145], 10
        yield command, [], 9


def tried_rows(all_of_them: bool) -> list[Row]:
    first = fixed_rows()
    return [*(first if all_of_them else one_of_each(first)), *more_rows()]


class Trial:
    def __init__(self, program: str, folder: str, rest: bool) -> None:
        self.program, self.folder, self.rest = program, folder, rest
        self.library = os.path.join(folder, "refuse.so")
        words = ["cc", "-O2", "-shared", "-fPIC", "-o", self.library, os.path.join(HERE, "refuse.c")]
        subprocess.run(words, check=True)

    def answer(self, words: list[str], refused: Optional[int] = None) -> tuple[int, bytes, bool]:
        """Status, text, and whether an allocation was refused."""
        if refused is None:
            done = subprocess.run([self.program, *words], stdout=subprocess.PIPE, check=False)
            return done.returncode, done.stdout, False
        tells, told = os.pipe()
        given = {"LD_PRELOAD": self.library, "REFUSE": str(refused), "REFUSE_TOLD": str(told)}
        if self.rest:
            given["REFUSE_REST"] = "1"
        words = [self.program, *words]
        done = subprocess.run(words, stdout=subprocess.PIPE, env=given, pass_fds=[told], check=False)
        os.close(told)
        was = os.read(tells, 1)
        os.close(tells)
        return done.returncode, done.stdout, was != b""

    def row(self, number: int, row: Row) -> tuple[str, collections.Counter[str], list[str]]:
        """The counts of a row, and what was wrong."""
        command, files, status = row
        names = [os.path.join(self.folder, f"{number}-{k}") for k in range(len(files))]
        for name, data in zip(names, files):
            if data is not None:
                with open(name, "wb") as file:
                    file.write(data)
        words, counts = [*command.split(), *names], collections.Counter(rows=1)
        wrong: list[str] = []
        plain = self.answer(words)
        if plain[0] != status:
            wrong.append(f"{command} {files}: wanted {status}, given {plain[0]} with ample memory")
        refused, k = True, 0
        while refused:
            k += 1
            ended, text, refused = self.answer(words, k)
            counts["refused"] += refused
            is_row = (ended, text) == plain[:2]
            if refused and not is_row:
                counts["status 8"] += 1
            if not is_row and not (refused and (ended, text) == (8, b"")):
                wrong.append(f"{command} {files}: allocation {k}: {ended} {text!r}")
        counts["the row's answer"] = counts["refused"] - counts["status 8"]
        return (command.split() or ["a file alone"])[0], counts, wrong


def main() -> None:
    asked = words_of(__doc__)
    asked.add_argument("program", metavar="PROGRAM", type=program_of)
    asked.add_argument("--all", action="store_true")
    asked.add_argument("--why", action="store_true")
    asked.add_argument("--rest", action="store_true")
    asked.add_argument("--jobs", type=count_of, default=2)
    given = asked.parse_args()
    tried = list(why_rows()) if given.why else tried_rows(given.all)
    counts: dict[str, collections.Counter[str]] = collections.defaultdict(collections.Counter)
    wrong: list[str] = []
    with tempfile.TemporaryDirectory() as folder:
        trial = Trial(given.program, folder, given.rest)
        with concurrent.futures.ThreadPoolExecutor(given.jobs) as pool:
            for command, of_row, of_wrong in pool.map(lambda row: trial.row(*row), enumerate(tried)):
                counts[command].update(of_row)
                wrong += of_wrong
    for line in wrong[:20]:
        print(line[:400])
    for command, of_command in counts.items():
        told = ("rows", "refused", "status 8", "the row's answer")
        print(f"{command}: " + ", ".join(f"{of_command[what]} {what}" for what in told))
    print(f"{len(wrong)} wrong")
    sys.exit(1 if wrong else 0)


if __name__ == "__main__":
    main()
