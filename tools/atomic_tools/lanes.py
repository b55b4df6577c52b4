"""The part of a page on a schedule: its steps in lanes, the written order below, and the state at each front.

The order in which an accepted source's schedule may be written, and the state of each front, are the program's. A
cell's line, kind and change are read by `machine`, and every front's state was held against the program's (`runs`).
"""
from __future__ import annotations

import json
import os
import re

from .cells import SIGNS, Asked, Order
from .command import Failed
from .markup import json_inside, samp, script, tag, text
from .orders import InOrder, NoOrders, differing, nearest, orders_of
from .programs import Written, atomic, expected, has_witness, witness_told
from .schedules import read_schedule, written
from .source import Source
from .states import Stuck

# more columns show first what other threads can see; longer orders aren't written out, and longer tables not made
MOST_UNFOLDED, MOST_WRITTEN, MOST_ROWS = 60, 400, 2000
KINDS = [
    ("right", "takes a lock: may be moved behind steps of others"),
    ("left", "gives a lock back: may be moved before steps of others"),
    ("both", "may be moved either way"),
    ("other", "can't be moved"),
    ("bare", "touches a guarded field without its guard"),
]
GROUPS = [("Objects and locks", ("object ", "lock ")), ("Threads", ("thread ",)), ("Printed", ("print ",))]


def state_lists(lines: list[str]) -> str:
    """A state in lists, each line as the program wrote it, with the source's lines at which threads stand."""
    out = []
    for name, words in GROUPS:
        rows = [tag("li", shown(line)) for line in lines if line.startswith(words)]
        out.append(tag("section", tag("h3", name), tag("ul", *rows)))
    return "".join(out)


def shown(line: str) -> str:
    words, _, place = line.partition("\t")
    return samp(words) + (" " + tag("small", place) if place else "")


def entries_of(file: str, path: str) -> tuple[list[int], str]:
    """The entries of a schedule; where one can't step those before it, and what the program says of it."""
    status, answer = atomic("run", file, path)
    expected((status, answer), 0, 4)
    with open(path, encoding="ascii", errors="replace") as text_file:
        schedule = read_schedule(text_file.read())
    if status == 0:
        return schedule, ""
    place = re.match(r"entry ([0-9]+):", answer)
    if place is None:
        raise Failed("`atomic run` names no entry")
    return schedule[: int(place[1]) - 1], answer.strip()


class Schedule:
    """The part of the page on a schedule."""

    def __init__(self, source: Source, file: str, path: str, accepted: bool) -> None:
        self.source, self.file, self.path, self.accepted = source, file, path, accepted
        self.schedule, self.stopped = entries_of(file, path)
        self.orders = [Order(Asked("as it ran", self.schedule, accepted), source, file)]
        if accepted:
            self.orders.append(self.rewritten())

    def rewritten(self) -> Order:
        """The written order; the open order where a thread stands inside a call at the end."""
        with Written(written(self.schedule)) as name:
            status, answer = atomic("serialise", self.file, name)
            title = "written order"
            if status == 5:
                status, answer = atomic("serialise-open", self.file, name)
                title = "open order"
        order = expected((status, answer), 0).split("\n")[0]
        return Order(Asked(title, read_schedule(order), True), self.source, self.file)

    def html(self) -> str:
        head = tag("h2", "Schedule ", tag("code", text(os.path.basename(self.path))))
        stopped = tag("p", samp(self.stopped), class_="line") if self.stopped else ""
        lanes = "".join(self.lanes(number, order) for number, order in enumerate(self.orders))
        last = tag("div", state_lists(self.orders[0].states[-1]), class_="state", id="state", aria_live="polite")
        both = tag("div", tag("div", lanes), last, class_="run")
        parts = [
            head,
            stopped,
            self.about(),
            kinds(self.accepted),
            self.slider(),
            both,
            self.ends(),
            self.tables(),
            self.data(),
        ]
        return tag("section", *parts, id="schedule")

    def about(self) -> str:
        words = f"{len(self.schedule)} entries. Time goes from left to right; a cell is a step, with its line below."
        if len(self.orders[0].cells.bounds) <= len(self.schedule):
            words += " There are more than 400, so a cell is a group of neighbours."
        if not self.accepted:
            words += " The source is refused, so nothing says that the steps can be rearranged."
        return tag("p", words, class_="what")

    def lanes(self, number: int, order: Order) -> str:
        rewritten = order.name.capitalize() + ": no other thread steps between the steps of an atomic call"
        line = written(order.schedule)
        shown_line = tag("p", samp(line), class_="line") if len(line) < MOST_WRITTEN else ""
        return tag("h3", "As it ran" if number == 0 else rewritten) + shown_line + order.html(number)

    def slider(self) -> str:
        most = len(self.orders[0].cells.columns())
        buttons = "".join(button_of(number, order) for number, order in enumerate(self.orders))
        label = tag("label", "state after", for_="front")
        start = most if self.accepted else self.orders[0].interruption()
        bar = tag("input", type="range", id="front", min="0", max=most, value=start, step="1")
        back = tag("button", "\u25c0", type="button", data_go="-1", aria_label="one back")
        on = tag("button", "\u25b6", type="button", data_go="1", aria_label="one on")
        pressed = "true" if most > MOST_UNFOLDED else "false"
        fold = tag("button", "only what others can see", type="button", data_fold="", aria_pressed=pressed)
        where = tag("output", id="where", for_="front")
        return tag("div", buttons if len(self.orders) > 1 else "", fold, label, back, bar, on, where, class_="slider")

    def tables(self) -> str:
        short = [order for order in self.orders if len(order.steps) <= MOST_ROWS]
        return "".join(
            tag("details", tag("summary", f"The steps in words: {order.name}"), order.table()) for order in short
        )

    def data(self) -> str:
        lines: dict[str, int] = {}
        orders = [order.data(lines) for order in self.orders]
        told = json.dumps({"orders": orders, "lines": list(lines)}, separators=(",", ":"))
        return script("const runs = " + json_inside(told) + ";")

    # Of a refused source: the verdict, and the ends of the threads one after the other.

    def ends(self) -> str:
        """What is told of the schedule, and how its end differs from the nearest ends of the threads in order."""
        if self.accepted or self.stopped:
            return ""
        head = tag("h3", "Whether it breaks a promise")
        return head + verdict_of(self.file, self.path) + self.beside()

    def beside(self) -> str:
        try:
            orders = orders_of(self.source, self.file)
        except (NoOrders, Stuck) as reason:
            return tag("p", text(f"No orders of the threads to compare with: {reason}."), class_="what")
        mine = self.orders[0].last
        near = nearest(mine, orders)
        rows = differing([mine, *(one.lines for one in near)])
        if not rows:
            return tag("p", "The threads one after the other end so, too.", class_="what")
        head = tag("h3", "Where its end differs from those of the threads one after the other")
        names = ["this schedule", *(one.name() for one in near)]
        told = [end_beside(name, [row[place] for row in rows], place == 0) for place, name in enumerate(names)]
        return head + tag("div", *told, class_="ends") + left_out(orders, near)


def verdict_of(file: str, path: str) -> str:
    """The line that `atomic_witness` writes of the schedule, or the order that it found."""
    if not has_witness():
        return tag("p", "There is no atomic_witness to tell it.", class_="what")
    reply = witness_told(file, path)
    line = tag("p", samp(expected(reply, 0, 2, 5, 16).strip()), class_="line")
    if reply[0] == 2:
        return line + tag("p", tag("strong", "So a promise is broken, and not only unproved."))
    if reply[0] == 0:
        words = "This order interrupts no atomic call and leaves the same: the schedule breaks nothing."
        return line + tag("p", words, class_="what")
    return line


def left_out(orders: list[InOrder], near: list[InOrder]) -> str:
    """How many of the orders are shown."""
    words = f"Of {len(orders)} orders the nearest ends are shown, and of these the lines that differ."
    return tag("p", words, class_="what") if near else ""


def button_of(number: int, order: Order) -> str:
    pressed = "true" if number == 0 else "false"
    return tag("button", text(order.name), type="button", data_show=number, aria_pressed=pressed)


def end_beside(name: str, lines: list[str], is_marked: bool) -> str:
    """Some lines of a state, which are marked or aren't."""
    rows = [tag("li", samp(line), class_="changed" if is_marked and line else None) for line in lines]
    return tag("section", tag("h3", name), tag("ul", *rows))


def kinds(accepted: bool) -> str:
    rows = [tag("span", tag("b", SIGNS[kind]), f" {kind}: {meaning}") for kind, meaning in KINDS]
    rows.append(tag("span", "a frame is an atomic call" + (", a ring its commit step" if accepted else "")))
    return tag("p", *rows, class_="kinds")
