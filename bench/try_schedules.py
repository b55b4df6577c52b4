#!/usr/bin/env python3
"""Tries what `serialise` and `serialise-open` promise, on random accepted programs and random schedules.

PROGRAM is `atomic` or the plain program. For each schedule that a command answers with status 0: the rewritten one
has each entry as often, `run` of both ends in the same state, the state is the one that stands behind the schedule,
and rewriting the rewritten one changes nothing. Schedules for `serialise-open` may end inside calls; for those that
don't, both commands write the same. The exit status is 0 where all of that held.
"""
from __future__ import annotations

import collections
import os
import random
import shutil
import subprocess
import sys
import tempfile
from collections.abc import Sequence
from typing import Union

from command_line import count_of, program_of, words_of
from random_shapes import workers
from schedules import drawn, read, runnable, written


class Trial:
    def __init__(self, program: str, folder: str, chooser: random.Random) -> None:
        self.program, self.folder, self.chooser = program, folder, chooser
        self.counts: collections.Counter[Union[int, str]] = collections.Counter()
        self.wrong, self.has_open = 0, False

    def path(self, name: str) -> str:
        return os.path.join(self.folder, name)

    def answer(self, command: str, schedule: list[int]) -> tuple[int, str]:
        with open(self.path("schedule"), "w", encoding="ascii") as file:
            file.write(written(schedule))
        words = [self.program, command, self.path("source"), self.path("schedule")]
        done = subprocess.run(words, capture_output=True, check=False)
        return done.returncode, done.stdout.decode()

    def expect(self, what: str, holds: bool) -> None:
        if not holds:
            self.wrong += 1
            for name in ("source", "schedule"):
                shutil.copy(self.path(name), ".")
            print(f"{what}: see ./source and ./schedule")

    def source(self, words: Sequence[str]) -> bool:
        with open(self.path("source"), "w", encoding="ascii") as file:
            file.write(workers(self.chooser, words, self.chooser.random() < 0.5))
        return self.status("check") == 0

    def status(self, command: str) -> int:
        """How a command ends on the source alone."""
        return subprocess.run([self.program, command, self.path("source")], capture_output=True, check=False).returncode

    def one(self) -> None:
        schedule, status, text = runnable(drawn(self.chooser), lambda s: self.answer("serialise", s), self.chooser)
        self.counts[status] += 1
        if status == 0:
            self.try_order("serialise", schedule, text)
        if self.has_open:
            self.one_open()

    def one_open(self) -> None:
        schedule, _, _ = runnable(drawn(self.chooser), lambda s: self.answer("run", s), self.chooser)
        status, text = self.answer("serialise-open", schedule)
        closed = self.answer("serialise", schedule)
        self.expect("other statuses", (status, closed[0]) in ((0, 0), (0, 5), (4, 4)))
        self.counts["left open"] += closed[0] == 5
        self.expect("another order", closed[0] != 0 or closed == (status, text))
        if status == 0:
            self.try_order("serialise-open", schedule, text)

    def try_order(self, command: str, schedule: list[int], text: str) -> None:
        line, _, state = text.partition("\n")
        rewritten = read(line)
        self.counts[f"moved by {command}"] += rewritten != schedule
        self.expect("no rearrangement", sorted(rewritten) == sorted(schedule))
        before, after = (self.answer("run", s) for s in (schedule, rewritten))
        self.expect("another state", before == after and after[0] == 0)
        self.expect("another text", "".join(f"# {row}\n" for row in after[1].splitlines()) == state)
        self.expect("changed again", self.answer(command, rewritten) == (0, text))


def main() -> None:
    parser = words_of(__doc__)
    parser.add_argument("program", metavar="PROGRAM", type=program_of, help="`atomic` or the plain program")
    parser.add_argument("count", metavar="COUNT", type=count_of, nargs="?", default=300, help="so many sources (300)")
    given = parser.parse_args()
    chooser = random.Random(7)
    with tempfile.TemporaryDirectory() as folder:
        trial = Trial(given.program, folder, chooser)
        with open(trial.path("source"), "w", encoding="ascii") as file:
            file.write("class A { int v write_guarded_by this; } class Main { void main() { } }")
        words = ["guarded_by", "write_guarded_by"] if trial.status("print") == 0 else ["guarded_by"]
        trial.has_open = trial.answer("serialise-open", [])[0] != 9
        for _ in range(given.count):
            if trial.source(words):
                trial.counts["accepted sources"] += 1
                for _ in range(3):
                    trial.one()
    for what, number in sorted(trial.counts.items(), key=str):
        print(f"{'status ' if isinstance(what, int) else ''}{what}: {number}")
    print(f"{trial.wrong} wrong")
    sys.exit(1 if trial.wrong else 0)


if __name__ == "__main__":
    main()
