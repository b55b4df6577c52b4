"""What the worked rows are made of: the forms of a row, and pieces of sources."""
from __future__ import annotations

from typing import Optional, Tuple, Union

Text = Union[str, bytes]
# command, source, status and text; where the text is None, only the status is wanted
Row = Tuple[str, Text, int, Optional[Text]]
# the same with a schedule behind the source
ScheduleRow = Tuple[str, Text, Text, int, Optional[Text]]

CELL = "class Cell { int v guarded_by this; atomic void inc() { synchronized (this) { this.v = this.v + 1; } } %s} "
WORKER = "class W implements Runnable { final Cell c; W(Cell c) { this.c = c; } public void run() { this.c.inc(); } } "
START = "new Thread(new W(c)).start(); "
MAIN = "class Main { void main() { final Cell c = new Cell(); " + 2 * START + "%s} }"
EMPTY_MAIN = "class Main { void main() { } }"
LOCKED = "class Main { int v guarded_by this; atomic void main() { synchronized (this) { this.v = 7; } } }"
BUFFER = (
    "class Buf { int n guarded_by this; atomic int length() { synchronized (this) { return this.n; } } "
    "atomic int get(int k) { synchronized (this) { return this.n - k; } } "
    "atomic void append(final Buf sb) { synchronized (this) { %s } } } " + EMPTY_MAIN
)
APPEND = "int k = sb.length(); this.n = this.n + sb.get(k);"
WRITES = (
    "class Cell { int v write_guarded_by this; atomic int get() { return this.v; } "
    "atomic void inc() { synchronized (this) { this.v = this.v + 1; } } %s} " + EMPTY_MAIN
)


def counter(in_cell: str = "", in_main: str = "", behind: str = "") -> str:
    """Two workers that raise a cell, with more members of the cell, statements of `main` and classes."""
    return CELL % in_cell + WORKER + MAIN % in_main + behind


def lines(*texts: str) -> str:
    return "".join(text + "\n" for text in texts)


def accepted(source: Text, *texts: str) -> Row:
    return ("check", source, 0, lines(*texts))


def broken(source: Text, text: str) -> Row:
    return ("check", source, 2, lines(text))


def refused(source: Text, text: str, command: str = "check") -> Row:
    return (command, source, 1, lines(f"refused at {text}"))


INC, RUN, STARTS = "Cell.inc this ? mover : atomic", "W.run this.c ? mover : atomic", "Main.main cmpd"


def counter_with(member: str, line: str) -> Row:
    return accepted(counter(member), INC, line, RUN, STARTS)
