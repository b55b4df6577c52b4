"""The schedule that `atomic_witness` finds in a source, and where it leaves threads inside atomic calls.

Whether it breaks a promise is the word of the program. At which line a thread is left is these scripts' own reading of
the machine (docs/machine.md).
"""
from __future__ import annotations

from collections.abc import Iterable
from typing import NamedTuple, Optional

from .lines import Fact
from .machine import Machine
from .programs import expected, witness_sought
from .schedules import groups_of, read_schedule
from .source import Source


class Left(NamedTuple):
    """A thread that is left inside an atomic call of this method, at this line."""

    thread: int
    line: Optional[int]
    method: str


class Witness(NamedTuple):
    """A schedule that breaks a promise, what `atomic_witness` tells of it, and where it leaves threads."""

    schedule: list[int]
    told: str
    places: list[Left]


def left_in(source: Source, schedule: Iterable[int]) -> list[Left]:
    """Where threads are left inside atomic calls."""
    machine, places = Machine(source), []
    for thread, times in groups_of(schedule):
        machine.run([thread] * times)
        frames = machine.threads[thread].frames
        outermost = next((frame.method for frame in frames if frame.method.atomic), None)
        if outermost is not None:
            places.append(Left(thread, machine.line_of(thread), outermost.full_name()))
    return places


def witness_in(source: Source, path: str) -> tuple[Optional[Witness], str]:
    """The schedule that the program finds, and what it tells; else what it tells of its search."""
    status, text = witness_sought(path)
    told = expected((status, text), 2, 16)
    if status == 16:
        return None, told.strip()
    lines = told.strip().split("\n")
    schedule = read_schedule(lines[0])
    return Witness(schedule, lines[1].removeprefix("# "), left_in(source, schedule)), ""


def first_step(method: str, groups: Iterable[list[Fact]]) -> list[Fact]:
    """The line of a refused method, and that of its first step, where `atomic_why` names one."""
    for group in groups:
        if group[0].text.split()[0] == method:
            return group[:2]
    return []
