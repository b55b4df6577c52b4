"""Holds what `atomic run` says of sources and schedules against what a JVM does with the same.

    comparison = Comparison(program, server, schedules=3)
    comparison.batch(cases)                           a text for each difference

Of each source the plain run is compared (`jvm_java`), and some random schedules are run step by step by real threads
(`jvm_steps`).
"""
from __future__ import annotations

import collections
import os
import random
import subprocess
import tempfile
from collections.abc import Iterator
from dataclasses import dataclass
from typing import Optional

import schedules as schedule_texts
from jvm_java import java_of
from jvm_reading import Machine, Source, Stuck
from jvm_runs import Endless, Run, drawn_run, is_too_deep, plain_run
from jvm_server import Server
from jvm_steps import stepping_of

MEMORY = "/dev/shm"


@dataclass
class Case:
    """A source with a number of its own, and who draws its schedules."""

    number: int
    data: bytes
    source: Source
    chooser: random.Random

    def plain_package(self) -> str:
        return f"p{self.number}"

    def steps_package(self) -> str:
        return f"s{self.number}"

    @staticmethod
    def of(number: int, data: bytes, seed: str) -> "Case":
        return Case(number, data, Source(data), random.Random(f"{seed} schedules"))

    def files(self) -> dict[str, str]:
        """The two texts of its program, by the names of their files."""
        plain = java_of(self.data, f"package {self.plain_package()}; import jvm.plain.Thread; ", "jvm.Recorded")
        steps = stepping_of(self.source, f"package {self.steps_package()}; import jvm.steps.Thread; ")
        return {f"{self.plain_package()}/Program.java": plain, f"{self.steps_package()}/Program.java": steps}


class Program:
    """The built `atomic`, which runs a schedule on a source."""

    def __init__(self, path: str) -> None:
        self.path = path
        self.folder = tempfile.TemporaryDirectory(prefix="atomic-run-", dir=MEMORY if os.path.isdir(MEMORY) else None)
        self.file, self.schedule = (os.path.join(self.folder.name, name) for name in ("source", "schedule"))

    def run(self, data: bytes, schedule: list[int]) -> tuple[int, str]:
        with open(self.file, "wb") as file:
            file.write(data)
        with open(self.schedule, "w", encoding="ascii") as file:
            file.write(schedule_texts.written(schedule))
        words = [self.path, "run", self.file, self.schedule]
        done = subprocess.run(words, stdout=subprocess.PIPE, close_fds=False, check=False)
        return done.returncode, done.stdout.decode()


def number_of(name: str) -> int:
    """The number of the case whose file has this name."""
    return int(name.partition("/")[0][1:])


def without_locks(text: str) -> str:
    return "".join(line for line in text.splitlines(True) if not line.startswith("lock "))


def first_difference(ours: str, theirs: str) -> str:
    """The first line that isn't the same."""
    pairs = zip(ours.splitlines() + ["(end)"], theirs.splitlines() + ["(end)"])
    return next((f"here {a!r}, in Java {b!r}" for a, b in pairs if a != b), "")


class Comparison:
    """Counts what was compared. With a machine of altered rules the built program isn't asked."""

    def __init__(
        self, program: Optional[Program], server: Server, machine: type[Machine] = Machine, schedules: int = 3
    ) -> None:
        self.program, self.server, self.machine, self.schedules = program, server, machine, schedules
        self.counts: collections.Counter[str] = collections.Counter()

    def batch(self, cases: list[Case]) -> list[str]:
        refused = self.compiled(cases)
        found = []
        for case in cases:
            if case.number in refused and self.is_refused(case):
                self.counts["refused by both"] += 1
                continue
            wrong = refused.get(case.number) or list(self.differences(case))
            found += [f"{text}\n{case.data.decode()}" for text in wrong]
        self.counts["programs"] += len(cases)
        return found

    def is_refused(self, case: Case) -> bool:
        """Whether the program refuses the source too: a random body may declare a variable again."""
        return self.program is not None and self.program.run(case.data, [])[0] == 1

    def compiled(self, cases: list[Case]) -> dict[int, list[str]]:
        """What javac says of the cases that it refuses."""
        files = {name: text for case in cases for name, text in case.files().items()}
        told = self.server.compile(files)
        wrong = {number_of(name): [f"javac: {name}: {error}"] for name, error in told.items() if error}
        if wrong:
            self.server.compile({name: text for name, text in files.items() if number_of(name) not in wrong})
        return wrong

    def differences(self, case: Case) -> Iterator[str]:
        yield from self.plain(case)
        for _ in range(self.schedules):
            yield from self.steps(case)

    def answer(self, case: Case, run: Run) -> tuple[str, list[str]]:
        """The text of the state, and what is wrong with the program's own answer."""
        if self.program is None:
            return run.text, []
        status, text = self.program.run(case.data, run.schedule)
        wrong = [f"the script's machine: {first_difference(text, run.text)}"] if (status, text) != (0, run.text) else []
        if run.waiting is not None:
            status, line = self.program.run(case.data, run.schedule + [run.waiting])
            if status != 4 or not line.startswith(f"entry {len(run.schedule) + 1}: thread {run.waiting} waits for "):
                wrong.append(f"status {status}, {line!r} where thread {run.waiting} waits")
        return text, wrong

    def plain(self, case: Case) -> Iterator[str]:
        machine = self.machine(case.source)
        try:
            run = plain_run(machine)
        except Endless:
            self.counts["endless"] += 1
            return
        if run.count < len(machine.threads):
            # its text is that of the front in which no thread waits
            machine = self.machine(case.source)
            machine.run(run.schedule)
            run.text = machine.text()
            self.counts["waiting"] += 1
        if is_too_deep(machine):
            self.counts["too deep for the machine"] += 1
            return
        text, wrong = self.answer(case, run)
        yield from wrong
        self.counts["plain runs"] += 1
        given = self.server.plain(case.plain_package(), run.count)
        if given != without_locks(text):
            yield f"plain: {first_difference(without_locks(text), given)}"

    def steps(self, case: Case) -> Iterator[str]:
        machine = self.machine(case.source)
        try:
            run = drawn_run(machine, case.chooser)
        except Endless:
            self.counts["endless"] += 1
            return
        text, wrong = self.answer(case, run)
        yield from wrong
        self.counts["schedules"] += 1
        self.counts["steps"] += len(run.schedule)
        self.counts["visible steps"] += len(run.steps)
        waiting = "" if run.waiting is None else str(run.waiting)
        state, steps, wait = self.server.steps(case.steps_package(), run.threads(), waiting)
        wanted = "".join(line + "\n" for line in run.steps)
        if run.waiting is not None:
            wanted, expected = self.waited(machine, run, wanted)
            if wait != expected:
                yield f"waiting: here {expected!r}, in Java {wait!r}"
        if steps != wanted:
            yield f"steps: {first_difference(wanted, steps)}"
        if state != text:
            yield f"state: {first_difference(text, state)}"

    def waited(self, machine: Machine, run: Run, steps: str) -> tuple[str, str]:
        """The steps with the one that waits, and the line that says so."""
        self.counts["waits"] += 1
        number = run.waiting
        assert number is not None
        address = machine.threads[number].frames[-1].operands[-1]
        try:
            machine.step(number)
        except Stuck as stuck:
            return f"{steps}{number} acquire {address[0]}:{address[1]}\n", f"thread {number} {stuck}"
        return steps, "thread doesn't wait"
