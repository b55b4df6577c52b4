#!/usr/bin/env python3
"""A line for each command, kind of source and size, of the folders that run.sh makes, with what both programs take and
their ratios: milliseconds of processor time (the least of seven runs), millions of instructions as callgrind counts
them, page faults, and peak memory in KiB. Load changes the milliseconds alone."""
from __future__ import annotations

import os
import re
import subprocess
from typing import NamedTuple, Optional

from command_line import PROGRAM, program_of, words_of

KINDS = "full classes methods statements locks paths calls chain chain_back cycle line heirs inherited pairs".split()
BOOKS = "classes methods statements locks paths calls chain".split()
HOSTILE = "braces letters not_text parentheses nots dots".split()
SCHEDULES = "workers objects deep prints".split()
SHARES = (8, 4, 2, 1)
RUNS = 7


class Row(NamedTuple):
    """A command on files of a folder, which has the sources of this part of the whole size."""

    command: str
    files: tuple[str, ...]
    share: int

    def words(self, program: str) -> list[str]:
        return [program, self.command, *(os.path.join(str(self.share), file) for file in self.files)]

    def title(self) -> str:
        return f"{self.command:14} {self.files[0]:11} {'1' if self.share == 1 else f'1/{self.share}':>4}"


class Cost(NamedTuple):
    """What a run takes, each where there is a program that tells it."""

    milliseconds: Optional[float]
    millions: Optional[float]
    faults: Optional[float]
    kibibytes: Optional[float]


class Measured(NamedTuple):
    """What a run takes, and its answer."""

    cost: Cost
    answer: tuple[int, bytes]


def rows() -> list[Row]:
    """Each kind of each command, from the smallest size to the whole."""
    named: list[tuple[str, tuple[str, ...]]] = [("print", ("full",)), *(("check", (kind,)) for kind in KINDS)]
    for kind in SCHEDULES:
        named += [(command, (kind, f"{kind}.schedule")) for command in ("run", "serialise", "serialise-open")]
    hostile = [Row("check", (kind,), 1) for kind in HOSTILE]
    return [Row(command, files, share) for command, files in named for share in SHARES] + hostile


def processor_time(words: list[str]) -> float:
    """Milliseconds of processor time of a run."""
    with subprocess.Popen(words, stdout=subprocess.DEVNULL, stderr=subprocess.DEVNULL) as process:
        _, status, usage = os.wait4(process.pid, 0)
        process.returncode = os.waitstatus_to_exitcode(status)
    seconds: float = usage.ru_utime + usage.ru_stime
    return seconds * 1000


def millions(words: list[str]) -> Optional[float]:
    """Millions of instructions, or none where valgrind isn't there."""
    try:
        done = subprocess.run(
            ["valgrind", "--tool=callgrind", "--callgrind-out-file=/dev/null", *words], capture_output=True, check=False
        )
    except FileNotFoundError:
        return None
    found = re.search(r"Collected : (\d+)", done.stderr.decode())
    return int(found[1]) / 1e6 if found else None


def memory(words: list[str]) -> tuple[Optional[float], Optional[float]]:
    """Page faults and the most KiB that a run holds, or none where time(1) isn't there."""
    try:
        done = subprocess.run(["/usr/bin/time", "-f", "%R %M", *words], capture_output=True, check=False)
    except FileNotFoundError:
        return None, None
    faults, kibibytes = done.stderr.split()[-2:]
    return float(faults), float(kibibytes)


def measured(words: list[str]) -> Optional[Measured]:
    """What a run takes and answers; nothing where the program hasn't got the command."""
    done = subprocess.run(words, capture_output=True, check=False)
    if done.returncode == 9:
        return None
    cost = Cost(min(processor_time(words) for _ in range(RUNS)), millions(words), *memory(words))
    return Measured(cost, (done.returncode, done.stdout))


def shown(value: Optional[float], width: int) -> str:
    return f"{value:{width}.1f}" if value is not None else f"{'-':>{width}}"


def line(row: Row, ours: Optional[Measured], theirs: Measured) -> str:
    """The line of a row: both costs and their ratio, and whether the answers are the same."""
    cells = []
    for place, other in enumerate(theirs.cost):
        mine = ours.cost[place] if ours else None
        ratio = mine / other if mine is not None and other else None
        cells += [shown(mine, 8), shown(other, 8), shown(ratio, 6)]
    same = ours is None or ours.answer == theirs.answer
    return f"{row.title()} {' '.join(cells)}  status {theirs.answer[0]}{'' if same else ' ANSWERS DIFFER'}"


def main() -> None:
    parser = words_of(__doc__)
    parser.add_argument("program", metavar="ATOMIC", type=program_of, help=PROGRAM)
    parser.add_argument("plain", metavar="PLAIN", type=program_of, help="the plain program of this folder")
    parser.add_argument("--only", metavar="WORD", help="the rows of this command or this kind alone")
    given = parser.parse_args()
    heads = " ".join(f"{unit:>8} {'plain':>8} {'ratio':>6}" for unit in ("ms", "Minstr", "faults", "KiB"))
    print(f"{'':31} {heads}")
    for row in rows():
        if given.only not in (None, row.command, row.files[0]):
            continue
        theirs = measured(row.words(given.plain))
        if theirs:
            print(line(row, measured(row.words(given.program)), theirs), flush=True)
    if given.only in (None, "derive", "verify"):
        books(given.program)


def books(program: str) -> None:
    """What deriving a book and verifying it cost beside checking the source, in millions of instructions."""
    print("book", *"check derive verify bytes answer".split())
    for kind in BOOKS:
        source, file_of_book = os.path.join("1", kind), f"{kind}.book"
        book = subprocess.run([program, "derive", source], capture_output=True, check=False).stdout
        with open(file_of_book, "wb") as file:
            file.write(book)
        commands = (("check", source), ("derive", source), ("verify", source, file_of_book))
        costs = [millions([program, *words]) for words in commands]
        done = subprocess.run([program, "verify", source, file_of_book], capture_output=True, check=False)
        print(kind, *(shown(cost, 8) for cost in costs), len(book), done.stdout.decode().strip(), flush=True)


if __name__ == "__main__":
    main()
