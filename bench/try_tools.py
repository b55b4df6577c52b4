#!/usr/bin/env python3
"""Holds what the scripts of ../tools read from texts against the programs, on random sources.

Of each random source that is well-formed: the parts as they are read are those of the book and of the listing, and
what they are at the `requires`, by the locks as they are read, is what `atomic_why --all` says. Of each random
schedule of it: the state or the reason that `run` writes is the scripts' too, and the written order that `serialise`
writes is the one that their kinds and calls give. The exit status is 0 where all of that held.
"""
from __future__ import annotations

import collections
import os
import random
import shutil
import sys
import tempfile

from command_line import PROGRAM, WHY, count_of, program_of, set_programs, words_of
from random_shapes import workers
from random_source import Generator
from schedules import drawn

from atomic_tools.command import Failed
from atomic_tools.machine import Machine
from atomic_tools.page import without_promises
from atomic_tools.programs import Answers, atomic
from atomic_tools.runs import calls_of
from atomic_tools.schedules import written
from atomic_tools.source import Source
from atomic_tools.states import Step, Stuck
from atomic_tools.views import View

WORDS = ("guarded_by", "write_guarded_by")


def random_text(chooser: random.Random) -> str:
    if chooser.random() < 0.5:
        return workers(chooser, WORDS, chooser.random() < 0.5)
    return Generator(
        chooser.randint(0, 10**9), calm=chooser.random() < 0.7, words=WORDS, extends=chooser.random() < 0.7
    ).source()


def unit_order(steps: list[Step]) -> list[int]:
    """The entries in the order of their units' commit places."""
    owner: dict[int, int] = {}
    for call in calls_of(steps):
        for place in range(call.first, call.last + 1):
            if steps[place].thread == call.thread:
                owner[place] = place if call.commit is None else call.commit
    places = sorted(range(len(steps)), key=lambda place: (owner.get(place, place), place))
    return [steps[place].thread for place in places]


class Trial:
    def __init__(self, folder: str, chooser: random.Random) -> None:
        self.folder, self.chooser, self.wrong = folder, chooser, 0
        self.counts: collections.Counter[str] = collections.Counter()

    def path(self, name: str) -> str:
        return os.path.join(self.folder, name)

    def write(self, name: str, text: str) -> str:
        with open(self.path(name), "w", encoding="utf-8") as file:
            file.write(text)
        return self.path(name)

    def expect(self, what: str, holds: bool) -> None:
        if not holds:
            self.wrong += 1
            print(f"{what}: see source.{self.wrong} and schedule.{self.wrong}")
            for name in ("source", "schedule"):
                shutil.copy(self.path(name), f"{name}.{self.wrong}")

    def one(self) -> None:
        path = self.write("source", random_text(self.chooser))
        self.write("schedule", "")
        answers = Answers(path)
        self.counts[f"check {answers.status}"] += 1
        if answers.status not in (0, 2):
            return
        with open(path, "rb") as file:
            source = Source(file.read())
        try:
            answers.judge(path, without_promises(source))
            self.counts["parts"] += sum(len(View(source, method, answers).trees) for method in source.methods)
        except Failed as failed:
            self.expect(str(failed), False)
        for _ in range(3):
            self.schedule(source, path, answers.status == 0)

    def schedule(self, source: Source, path: str, accepted: bool) -> None:
        """A random schedule, without the entries that can't step."""
        entries = drawn(self.chooser)
        for _ in range(60):
            status, text = atomic("run", path, self.write("schedule", written(entries) + "\n"))
            machine = Machine(source)
            try:
                steps = machine.run(entries)
                mine = 0, machine.text()
            except Stuck as stuck:
                mine = 4, f"{stuck}\n"
            self.counts[f"run {status}"] += 1
            self.expect("run", mine == (status, text))
            if status != 4:
                break
            entry = int(text.split()[1].rstrip(":"))
            entries = entries[: entry - 1] + entries[entry:]
        if accepted and mine[0] == 0:
            self.order(path, steps)

    def order(self, path: str, steps: list[Step]) -> None:
        status, text = atomic("serialise", path, self.path("schedule"))
        self.counts[f"serialise {status}"] += 1
        if status == 0:
            self.expect("serialise", text.splitlines()[0] == written(unit_order(steps)))


def main() -> None:
    parser = words_of(__doc__)
    parser.add_argument("program", metavar="PROGRAM", type=program_of, help=PROGRAM)
    parser.add_argument("why", metavar="WHY", type=program_of, help=WHY)
    parser.add_argument("count", metavar="COUNT", type=count_of, nargs="?", default=200, help="so many sources (200)")
    parser.add_argument("seed", metavar="SEED", type=count_of, nargs="?", default=11, help="where chance begins (11)")
    given = parser.parse_args()
    set_programs(given.program, given.why)
    with tempfile.TemporaryDirectory() as folder:
        trial = Trial(folder, random.Random(given.seed))
        for _ in range(given.count):
            trial.one()
    told = ", ".join(f"{what}: {count}" for what, count in sorted(trial.counts.items()))
    print(f"{told}; {trial.wrong} wrong")
    sys.exit(1 if trial.wrong else 0)


if __name__ == "__main__":
    main()
