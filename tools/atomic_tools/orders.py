"""The threads of a source one after the other, and how their ends differ from the end of a schedule.

    found = orders_of(source, path)      the orders, each with the state that the program writes at its end
    near = nearest(lines, found)         those that end nearest to this state
    rows = differing([lines, ..])        the lines of some states, beside each other, where they differ

The threads are those that `main` starts. Which steps a thread takes is the reading of `machine`; the states are those
that `atomic run` writes.
"""
from __future__ import annotations

import itertools
from collections.abc import Iterable
from typing import NamedTuple

from .command import Failed
from .machine import Machine
from .runs import state_after
from .schedules import written
from .source import Source
from .states import Step

MOST_THREADS, MOST_STEPS, MOST_SHOWN = 5, 100_000, 3
# the lines of a state, in the order in which the program writes them
WORDS = ("print", "object", "lock", "thread")


class NoOrders(Exception):
    """There are no orders to show: the text says why."""


class InOrder(NamedTuple):
    """The threads one after the other, and the lines of the state at their end."""

    order: tuple[int, ...]
    lines: list[str]

    def name(self) -> str:
        return "thread " + ", then ".join(map(str, self.order))


def lines_of(state: str) -> list[str]:
    return state.split("\n")[:-1]


def to_the_end(machine: Machine, thread: int, schedule: list[int]) -> list[Step]:
    """The thread goes on to its end; its steps."""
    steps = []
    while machine.threads[thread].status in ("ready", "running"):
        steps.append(machine.step(thread))
        schedule.append(thread)
        if len(schedule) > MOST_STEPS:
            raise NoOrders(f"thread {thread} takes more than {MOST_STEPS} steps")
    return steps


def begun(source: Source) -> tuple[Machine, list[int], range]:
    """The machine behind the end of `main`, the schedule so far, and the threads that it started."""
    schedule: list[int] = []
    machine = Machine(source)
    to_the_end(machine, 0, schedule)
    threads = range(1, len(machine.threads))
    if not threads:
        raise NoOrders("main starts no thread")
    if len(threads) < 2:
        raise NoOrders("main starts one thread alone")
    if len(threads) > MOST_THREADS:
        raise NoOrders(f"main starts more than {MOST_THREADS} threads")
    return machine, schedule, threads


def orders_of(source: Source, path: str) -> list[InOrder]:
    """The threads one after the other, in every order, with the states that the program writes."""
    _, _, threads = begun(source)
    return [InOrder(order, in_order(source, path, order)) for order in itertools.permutations(threads)]


def in_order(source: Source, path: str, order: Iterable[int]) -> list[str]:
    machine, schedule, _ = begun(source)
    for thread in order:
        to_the_end(machine, thread, schedule)
    state = state_after(path, written(schedule))
    if state != machine.text():
        raise Failed("the steps as this script reads them aren't the program's")
    return lines_of(state)


# Ends beside each other.


def by_what(lines: list[str]) -> dict[str, str]:
    """The lines of a state by what they tell of: a printed number, an object, a lock, a thread."""
    return {f"print {place}" if line.startswith("print ") else what(line): line for place, line in enumerate(lines)}


def what(line: str) -> str:
    return " ".join(line.split()[:2])


def differing(states: list[list[str]]) -> list[list[str]]:
    """For each thing of which not all states tell the same: its lines, nothing where a state has none."""
    told = [by_what(lines) for lines in states]
    keys = sorted(dict.fromkeys(itertools.chain(*told)), key=lambda key: WORDS.index(key.split()[0]))
    rows = [[one.get(key, "") for one in told] for key in keys]
    return [row for row in rows if len(set(row)) > 1]


def nearest(mine: list[str], orders: Iterable[InOrder]) -> list[InOrder]:
    """The orders whose ends differ least from this state, of equal ends the first one: at most so many."""
    ends: dict[tuple[str, ...], InOrder] = {}
    for order in orders:
        ends.setdefault(tuple(order.lines), order)
    return sorted(ends.values(), key=lambda order: len(differing([mine, order.lines])))[:MOST_SHOWN]
