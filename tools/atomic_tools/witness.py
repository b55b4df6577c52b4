"""The command `atomic-witness`: a schedule that shows what a refused method does wrong.

`atomic_witness` finds it, and judges it. Beside it this script tells where the schedule leaves a thread inside an
atomic call, and how its end differs from those of the threads one after the other.
"""
from __future__ import annotations

import argparse
import itertools
from typing import NoReturn, Optional

from .command import Answer, escaped, run, with_output, words_of
from .escapes import warnings_of
from .lines import Fact
from .orders import NoOrders, differing, lines_of, nearest, orders_of
from .programs import explanations, judged
from .runs import state_after
from .schedules import written
from .search import Left, Witness, first_step, witness_in
from .source import Source
from .states import Stuck

ABOUT = """Writes a schedule that shows what a refused method does wrong, as `atomic_witness` finds it.

        It tells at which line the schedule leaves a thread inside an atomic call, and how its end differs from those
        of the threads one after the other. `atomic_witness` judges it: no schedule that interrupts no atomic call ends
        so, or at least none with the same entries.

What it shows stands in comments, so `atomic run FILE` takes the text as a schedule."""
BEHIND = """The status is 0 where a promise is broken, 1 where `atomic_witness` finds no such schedule, 2 where no
         method is refused or the words are wrong, and 3 where something failed. That none was found doesn't mean
         that the method keeps its promise."""


def beside(columns: list[list[str]]) -> list[str]:
    """Columns of lines beside each other."""
    widths = [max(map(len, column)) for column in columns]
    rows = itertools.zip_longest(*columns, fillvalue="")
    return ["  ".join(f"{cell:{width}}" for cell, width in zip(row, widths)).rstrip() for row in rows]


def shown(fact: Fact) -> str:
    """The line of a method as it stands, that of a step with its place."""
    return fact.text if fact.word == "error" else f"{escaped(fact.file)}:{fact.line}:{fact.column}: {fact.text}"


def place_of(left: Left, groups: list[list[Fact]]) -> list[str]:
    """Where a thread is left, and what `atomic_why` says of the method in which it is."""
    stands = "" if left.line is None else f" at line {left.line}"
    return [*map(shown, first_step(left.method, groups)), f"thread {left.thread} is left{stands}, inside {left.method}"]


def told(found: Witness, source: Source, groups: list[list[Fact]], path: str) -> list[str]:
    """What the schedule shows."""
    places = [line for left in found.places for line in [*place_of(left, groups), ""]]
    return [*places, *ends(found, source, path), "", found.told]


def ends(found: Witness, source: Source, path: str) -> list[str]:
    """Where the end of the schedule differs from the nearest ends of the threads one after the other."""
    try:
        orders = orders_of(source, path)
    except (NoOrders, Stuck) as reason:
        return [f"Beside which orders of the threads it stands isn't told: {reason}."]
    mine = lines_of(state_after(path, written(found.schedule)))
    near = nearest(mine, orders)
    heads = ["this schedule ends in", *(one.name() for one in near)]
    rows = differing([mine, *(one.lines for one in near)])
    columns = [[head, "", *(row[place] for row in rows)] for place, head in enumerate(heads)]
    return [*beside(columns), "", f"No order of the threads, of {len(orders)}, ends so."]


def comments(lines: list[str]) -> str:
    return "".join(f"# {line}".rstrip() + "\n" for line in lines)


def command(words: argparse.Namespace) -> Answer:
    status, text = judged(words.file)
    if status != 2:
        return Answer((text.split("\n")[0] if status else "no method is refused") + "\n", 2, words.output)
    with open(words.file, "rb") as file:
        data = file.read()
    source = Source(data)
    warnings = [f"{escaped(fact.file)}:{fact.shown()}" for fact in warnings_of(words.file, data)]
    found, none = witness_in(source, words.file)
    if found is None:
        return Answer(comments([*warnings, none]), 1, words.output)
    lines = told(found, source, explanations(words.file, 2), words.file)
    return Answer(comments(warnings + lines) + written(found.schedule) + "\n", 0, words.output)


def main(given: Optional[list[str]] = None) -> NoReturn:
    words = words_of("atomic-witness", ABOUT, BEHIND)
    words.add_argument("file", metavar="FILE", help="a source of which `atomic check` refuses a method")
    with_output(words)
    run(words, given, command)
