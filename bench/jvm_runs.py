"""Runs of a source on the scripts' machine, in the form in which a JVM can be asked for the same.

    plain_run(machine)                 main to its end, then each thread in the order of its start
    drawn_run(machine, chooser)        a random schedule

A step is *visible* where a JVM makes it in its turn: reading or writing a field, taking or giving back a lock, a print,
a start, and the entry of a thread. All others are the thread's own. A random run ends with each thread before its next
visible step, or at its end.
"""
from __future__ import annotations

import random
from dataclasses import dataclass, field
from typing import Optional

from jvm_reading import Machine, Stuck, shown

MOST_STEPS = 16000


class Endless(Exception):
    """The run has too many steps."""


@dataclass
class Run:
    """A schedule, its visible steps, each with its thread in front, and the state that it ends in.

    count is how many threads a plain run ran to their ends; waiting is a thread whose next step wants the lock of
    another one.
    """

    schedule: list[int] = field(default_factory=list)
    steps: list[str] = field(default_factory=list)
    text: str = ""
    count: int = 0
    waiting: Optional[int] = None

    def threads(self) -> str:
        return " ".join(step.partition(" ")[0] for step in self.steps)


def visible(machine: Machine, number: int) -> Optional[str]:
    """What the thread's next step is, without the value that it reads; None where it isn't visible."""
    thread = machine.threads[number]
    if thread.status == "ready":
        return f"enter {shown(thread.on)}"
    frame = thread.frames[-1]
    item = frame.code.items[frame.place]
    what, name = item.what, item.operand
    operands = frame.operands
    if what == "get":
        return f"get {shown(operands[-1])} {name}"
    if what == "put":
        return f"put {shown(operands[-2])} {name} {shown(operands[-1])}"
    if what in ("acquire", "print", "start"):
        return f"{what} {shown(operands[-1])}"
    return f"release {shown(frame.taken[-1])}" if what == "release" else None


class Course:
    """Steps of a machine, kept as a run."""

    def __init__(self, machine: Machine, most: int) -> None:
        self.machine, self.most, self.run = machine, most, Run()

    def step(self, number: int) -> None:
        """One step of a thread; Stuck where it has none."""
        self.machine.ready(number)
        line = visible(self.machine, number)
        step = self.machine.step(number)
        if len(self.run.schedule) >= self.most:
            raise Endless
        self.run.schedule.append(number)
        if line:
            if line.startswith("get") and not step.fault:
                line += " " + shown(self.machine.threads[number].frames[-1].operands[-1])
            self.run.steps.append(f"{number} {line}")

    def to_end(self, number: int) -> bool:
        """Whether the thread comes to its end."""
        try:
            while True:
                self.step(number)
        except Stuck as stuck:
            return not str(stuck).startswith("waits")

    def settle(self) -> None:
        """Each thread makes the steps of its own that come next."""
        for number, thread in enumerate(self.machine.threads):
            while thread.status == "running" and visible(self.machine, number) is None:
                self.step(number)

    def ended(self) -> Run:
        self.run.text = self.machine.text()
        return self.run


def plain_run(machine: Machine) -> Run:
    """Main to its end, then each thread to its own, up to the first that waits for a lock."""
    course = Course(machine, MOST_STEPS)
    number = 0
    while number < len(machine.threads):
        mark = len(course.run.schedule), len(course.run.steps)
        if not course.to_end(number):
            del course.run.schedule[mark[0] :], course.run.steps[mark[1] :]
            break
        number += 1
    course.run.count = number
    return course.ended()


def is_too_deep(machine: Machine) -> bool:
    return any(thread.status == "faulted depth" for thread in machine.threads)


def drawn_run(machine: Machine, chooser: random.Random) -> Run:
    """A random schedule: to the end of all threads, or cut off before it."""
    most = chooser.choice([30, 100, 300, 1000, 3000, MOST_STEPS - 1000])
    lengths = chooser.choice([[1], [1, 2, 3], [1, 2, 5, 20], [5, 40, 200]])
    first = chooser.choice([0, 0, 20, 100])
    course = Course(machine, MOST_STEPS)
    number = 0
    while len(course.run.schedule) < most:
        able = [k for k in range(len(machine.threads)) if machine.can_step(k)]
        if not able:
            break
        number = 0 if 0 in able and len(course.run.schedule) < first else chooser.choice(able)
        for _ in range(chooser.choice(lengths)):
            if not machine.can_step(number):
                break
            course.step(number)
    course.settle()
    waiting = [k for k, thread in enumerate(machine.threads) if thread.status == "running" and not machine.can_step(k)]
    course.run.waiting = chooser.choice(waiting) if waiting else None
    return course.ended()
