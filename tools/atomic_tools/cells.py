"""An order of a schedule's entries as lanes: a row for each thread, and a cell for each step or for a group of
neighbours."""
from __future__ import annotations

from collections.abc import Callable, Iterable
from dataclasses import dataclass
from typing import Any

from .markup import tag, text
from .runs import Call, Run
from .source import Source
from .states import Step, shown

MOST_CELLS, MOST_LANES, COLOURS = 400, 40, 6
SIGNS = {"right": "\u2192", "left": "\u2190", "both": "\u2194", "other": "\u25c6", "bare": "\u2715"}
# the kinds from the one that a group is shown in before all others
STRONGEST = ("bare", "other", "left", "right", "both")

CHANGES: dict[str, Callable[..., str]] = {
    "field": lambda address, name, old, new: f"{name}={shown(new)}",
    "local": lambda name, new: f"{name}={shown(new)}",
    "object": lambda address, name: f"new {shown(address)}",
    "lock": lambda address, count: f"lock {shown(address)}" + (f" \u00d7{count}" if count > 1 else ""),
    "unlock": lambda address, count: f"free {shown(address)}" if count == 0 else f"lock {shown(address)} \u00d7{count}",
    "print": lambda number: f"print {number}",
    "start": lambda thread: f"start {thread}",
}
DEEDS = {
    "push": "a literal",
    "load": "reads a variable",
    "store": "assigns a variable",
    "drop": "drops a result",
    "un": "computes",
    "bin": "computes",
    "and": "decides",
    "or": "decides",
    "branch": "decides",
    "get": "reads a field",
    "put": "writes a field",
    "new": "makes an object",
    "call": "calls",
    "ret": "returns",
    "acquire": "takes a lock",
    "release": "gives a lock back",
    "print": "prints",
    "start": "starts a thread",
    "enter": "begins",
}


# What is told of steps.


def change_text(step: Step) -> str:
    """What a step changed, in a few letters."""
    if step.fault:
        return f"fault {step.fault}"
    if step.seen:
        return f"{step.seen[0]}: {shown(step.seen[1])}"
    if step.change is None:
        return f"{step.entered.name}()" if step.entered else "end" if step.left else ""
    what, *rest = step.change
    return CHANGES[what](*rest)


def long_text(step: Step, source: Source) -> str:
    """The same for whoever points at it."""
    line, _ = source.place(step.at)
    words = f"thread {step.thread}, line {line}, {step.method.full_name()}: {DEEDS.get(step.what, step.what)}"
    if step.change and step.change[0] == "field":
        _, address, name, old, new = step.change
        return f"{words} {shown(address)}.{name}: {shown(old)} becomes {shown(new)}"
    told = change_text(step)
    return f"{words}: {told}" if told else words


def is_quiet(step: Step) -> bool:
    """Whether other threads see nothing of the step."""
    return step.kind == "both" and not step.fault and (step.change is None or step.change[0] == "local")


def strongest(steps: Iterable[Step]) -> str:
    """The kind that a group of steps is shown in."""
    kinds = {step.kind for step in steps}
    return next(kind for kind in STRONGEST if kind in kinds)


# Columns.


class Cells:
    """The steps of an order in columns: one each, or groups of neighbours where there are more than fit."""

    def __init__(self, run: Run) -> None:
        count = len(run.steps)
        self.bounds = list(range(count + 1))
        if count > MOST_CELLS:
            self.bounds = thinned(grouped(run, count))

    def columns(self) -> list[tuple[int, int]]:
        return list(zip(self.bounds, self.bounds[1:]))

    def column_of(self, entry: int) -> int:
        """The column of an entry, from 0."""
        low, high = 0, len(self.bounds) - 1
        while high - low > 1:
            middle = (low + high) // 2
            low, high = (middle, high) if self.bounds[middle] <= entry else (low, middle)
        return low


def grouped(run: Run, count: int) -> list[int]:
    """Where the thread changes, and as long as there is room where atomic calls begin and end, and where a step isn't
    both."""
    steps, bounds = run.steps, {0, count}
    bounds |= {place for place in range(1, count) if steps[place - 1].thread != steps[place].thread}
    calls = {place for call in run.calls for place in (call.first, call.last + 1)}
    others = {place + more for place in range(count) if steps[place].kind != "both" for more in (0, 1)}
    for more in (calls, others):
        bounds = bounds | more if len(bounds | more) <= MOST_CELLS + 1 else bounds
    return sorted(bounds)


def thinned(bounds: list[int]) -> list[int]:
    """At most so many of these bounds, evenly."""
    most = min(MOST_CELLS, len(bounds) - 1)
    return sorted({bounds[place * (len(bounds) - 1) // most] for place in range(most + 1)})


@dataclass(frozen=True)
class Asked:
    """What is to be shown as an order: its name, its entries, and whether its source is accepted, so that calls
    commit."""

    name: str
    schedule: list[int]
    accepted: bool


class Order:
    """An order of a schedule's entries, with its lanes and the states of its fronts."""

    def __init__(self, asked: Asked, source: Source, path: str) -> None:
        self.name, self.source, self.schedule = asked.name, source, asked.schedule
        run = Run(source, path, asked.schedule)
        self.cells = Cells(run)
        run.look(self.cells.bounds)
        self.steps, self.calls, self.last = run.steps, run.calls, run.states[len(asked.schedule)]
        self.states = [run.placed[bound] for bound in self.cells.bounds]
        self.commits = {call.commit for call in self.calls} if asked.accepted else set()
        self.threads = sorted({step.thread for step in self.steps})

    def html(self, number: int) -> str:
        if len(self.threads) > MOST_LANES:
            return tag("p", f"More than {MOST_LANES} threads: no lanes.", class_="what")
        rows = {thread: row for row, thread in enumerate(self.threads, 1)}
        parts = [lane(thread, row) for thread, row in rows.items()]
        parts += [self.call(call, rows) for call in self.calls]
        for column, bounds in enumerate(self.cells.columns()):
            parts += self.column(column, bounds, rows)
        grid = tag("div", *parts, class_="grid")
        return tag("div", grid, class_="lanes", tabindex="0", role="group", aria_label=self.name, data_order=number)

    def call(self, call: Call, rows: dict[int, int]) -> str:
        first, last = self.cells.column_of(call.first) + 2, self.cells.column_of(call.last) + 3
        area = f"grid-area:{rows[call.thread]}/{first}/auto/{last}"
        classes = f"call t{call.thread % COLOURS}" + ("" if call.whole else " open")
        return tag("span", text(call.method.full_name()), class_=classes, style=area)

    def column(self, column: int, bounds: tuple[int, int], rows: dict[int, int]) -> list[str]:
        """The cells of a column: one for each thread that steps in it."""
        steps = self.steps[bounds[0] : bounds[1]]
        commits = {self.steps[place].thread for place in range(*bounds) if place in self.commits}
        cells = []
        for thread in dict.fromkeys(step.thread for step in steps):
            own = [step for step in steps if step.thread == thread]
            cells.append(self.cell(column, own, rows[thread], thread in commits))
        return cells

    def cell(self, column: int, steps: list[Step], row: int, commits: bool) -> str:
        kind = strongest(steps)
        lines = sorted({self.source.place(step.at)[0] for step in steps})
        told = change_text(steps[0]) if len(steps) == 1 else f"{len(steps)} steps"
        inside = [
            tag("i", SIGNS[kind]),
            tag("b", text(told)),
            tag("small", str(lines[0]) if len(lines) == 1 else f"{lines[0]}\u2013{lines[-1]}"),
        ]
        marks = (" quiet" if all(is_quiet(step) for step in steps) else "") + (" commit" if commits else "")
        classes = f"cell {kind}{marks} t{steps[0].thread % COLOURS}"
        return tag(
            "span",
            *inside,
            class_=classes,
            style=f"grid-area:{row}/{column + 2}",
            title=self.title(steps),
            data_k=column,
        )

    def title(self, steps: list[Step]) -> str:
        """What is told of a cell: its step, or what its steps changed for others."""
        if len(steps) == 1:
            return f"{long_text(steps[0], self.source)} ({steps[0].kind})"
        told = [long_text(step, self.source) for step in steps if not is_quiet(step)]
        return "\n".join(
            [f"thread {steps[0].thread}: {len(steps)} steps"] + told[:12] + (["and more"] if len(told) > 12 else [])
        )

    def interruption(self) -> int:
        """The column behind which another thread first steps inside of an atomic call; the last one where none does."""
        found = [
            place
            for call in self.calls
            for place in range(call.first + 1, call.last)
            if self.steps[place].thread != call.thread
        ]
        return self.cells.column_of(min(found)) if found else len(self.cells.columns())

    def table(self) -> str:
        """The steps in words, for whoever doesn't look at lanes."""
        head = tag("tr", *(tag("th", words, scope="col") for words in ("entry", "thread", "line", "kind", "changes")))
        rows = [self.row(entry, step) for entry, step in enumerate(self.steps, 1)]
        return tag("div", tag("table", tag("thead", head), tag("tbody", *rows)), class_="scroll", tabindex="0")

    def row(self, entry: int, step: Step) -> str:
        line = self.source.place(step.at)[0]
        kind = step.kind + (", commits" if entry - 1 in self.commits else "")
        return tag(
            "tr", *(tag("td", text(str(words))) for words in (entry, step.thread, line, kind, change_text(step)))
        )

    def data(self, lines: dict[str, int]) -> dict[str, Any]:
        """For the slider: the states by the numbers of their lines, and what the columns do."""
        last_steps = (self.steps[last - 1] for _, last in self.cells.columns())
        told = [[step.thread, self.source.place(step.at)[0]] for step in last_steps]
        states = [[lines.setdefault(line, len(lines)) for line in state] for state in self.states]
        return {"states": states, "steps": told, "bounds": self.cells.bounds}


def lane(thread: int, row: int) -> str:
    return tag("span", f"thread {thread}", class_=f"lane t{thread % COLOURS}", style=f"grid-area:{row}/1")
