"""What the steps of a schedule are: the machine of these scripts beside the program's.

    run = Run(source, path, schedule)
    run.steps[K]        the step of entry K, from 0
    run.calls           the outermost atomic calls
    run.look(fronts)
    run.states[N]       the lines that `atomic run` writes of the first N entries, for each N of the fronts
    run.placed[N]       the same, and behind a tab the source's line at which a thread stands that runs

`look` compares the state of each front as this machine has it with the program's, and ends in `Failed` where they
differ.
"""
from __future__ import annotations

from collections.abc import Iterable
from dataclasses import dataclass
from typing import Optional

from .command import Failed
from .machine import Machine
from .parts import Method
from .programs import Written, atomic, expected
from .schedules import Fronts
from .source import Source
from .states import LEFT, OTHER, Step


def state_after(path: str, text: str) -> str:
    """The state that the program writes of the text of a schedule."""
    with Written(text) as name:
        return expected(atomic("run", path, name), 0)


@dataclass
class Call:
    """An outermost atomic call: its entries from the first to the last, and the one at which it commits."""

    thread: int
    method: Method
    first: int
    last: int
    # the number of frames below it
    depth: int
    commit: Optional[int] = None
    whole: bool = False

    def add(self, place: int, step: Step) -> None:
        self.last = place
        if self.commit is None and step.kind in (LEFT, OTHER):
            self.commit = place
        if step.left and step.depth == self.depth + 1:
            self.whole = True
            self.commit = place if self.commit is None else self.commit


def calls_of(steps: Iterable[Step]) -> list[Call]:
    """The outermost atomic calls of some steps, by their first entries."""
    calls: list[Call] = []
    opened: dict[int, Call] = {}
    for place, step in enumerate(steps):
        if step.thread not in opened and step.entered and step.entered.atomic:
            opened[step.thread] = Call(step.thread, step.entered, place, place, step.depth)
            calls.append(opened[step.thread])
        if step.thread not in opened:
            continue
        call = opened[step.thread]
        call.add(place, step)
        if call.whole:
            del opened[step.thread]
    return calls


class Run:
    def __init__(self, source: Source, path: str, schedule: list[int]) -> None:
        self.source, self.path, self.schedule = source, path, schedule
        self.steps = Machine(source).run(schedule)
        self.calls = calls_of(self.steps)
        self.states: dict[int, list[str]] = {}
        self.placed: dict[int, list[str]] = {}

    def look(self, fronts: Iterable[int]) -> None:
        """Asks the program for the state of each of these fronts, and compares it with this machine's."""
        machine, texts, place = Machine(self.source), Fronts(self.schedule), 0
        for count in fronts:
            for thread in self.schedule[place:count]:
                machine.step(thread)
            place = count
            state = state_after(self.path, texts.text(count))
            if state != machine.text():
                raise Failed(f"the steps as these scripts read them aren't the program's: entry {count}")
            self.states[count] = state.split("\n")[:-1]
            self.placed[count] = [placed(line, machine) for line in self.states[count]]


def placed(line: str, machine: Machine) -> str:
    """A line of the machine's state, with the source's line at which a thread stands that runs."""
    words = line.split()
    at = machine.line_of(int(words[1])) if words[0] == "thread" else None
    return line if at is None else f"{line}\tline {at}"
