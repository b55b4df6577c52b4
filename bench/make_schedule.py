#!/usr/bin/env python3
"""Writes a source and a schedule of up to 200,000 entries for `run` and `serialise`; with `--share N` of the N-th part
of them.

workers  100 workers that raise one cell by turns, each call in between those of the others
objects  100 threads that make 100,000 objects
deep     100 threads that call themselves, 1,000 frames each
prints   one thread that prints 100,000 numbers
"""
from __future__ import annotations

from typing import Optional

from command_line import count_of, words_of
from schedules import written

# a source and a schedule of it
Made = tuple[str, list[int]]

ENTRIES = 200_000
THREADS = 100
CELL = "class Cell { int v guarded_by this; atomic void inc() { synchronized (this) { this.v = this.v + 1; } } }\n"


def main_class(threads: int) -> str:
    starts = " new Thread(new W(c)).start();" * threads
    return f"class Main {{ void main() {{ final Cell c = new Cell();{starts} }} }}\n"


def worker(body: str, more: str = "") -> str:
    head = "class W implements Runnable { final Cell c; W(Cell c) { this.c = c; }"
    return f"{head} public void run() {{ {body} }} {more}}}\n"


def main_steps(threads: int) -> list[int]:
    """Enter, make the cell, store it; five steps for each thread; return."""
    return [0] * (4 + 3 * threads)


def rounds(each: int, steps: int) -> list[int]:
    """Each thread in turn takes so many steps."""
    return [thread for _ in range(steps) for thread in range(1, each + 1)]


def workers(entries: int) -> Made:
    """A turn of a worker's loop is 15 steps: the 7th takes the lock, the 14th frees it, the 15th ends the call."""
    schedule, places = main_steps(THREADS), [0] * (THREADS + 1)
    holder: Optional[int] = None
    while len(schedule) < entries - 20 * THREADS:
        for thread in range(1, THREADS + 1):
            # The first step of all enters the thread.
            place = (places[thread] - 1) % 15 if places[thread] else None
            if place == 6 and holder not in (None, thread):
                continue
            holder = thread if place == 6 else None if place == 13 else holder
            places[thread] += 1
            schedule.append(thread)
    order = sorted(range(1, THREADS + 1), key=lambda thread: thread != holder)
    for thread in order:
        # Steps 5 to 15 of a turn are the atomic call: go on to its end.
        if places[thread] and (places[thread] - 1) % 15 >= 5:
            left = 15 - (places[thread] - 1) % 15
            schedule += [thread] * left
    return CELL + worker("while (true) { this.c.inc(); }") + main_class(THREADS), schedule


def objects(entries: int) -> Made:
    made = "new Cell(); " * 500
    schedule = main_steps(THREADS)
    schedule += rounds(THREADS, (entries - len(schedule)) // THREADS)
    return CELL + worker(f"while (true) {{ {made}}}") + main_class(THREADS), schedule


def deep(entries: int) -> Made:
    schedule = main_steps(THREADS)
    schedule += rounds(THREADS, (entries - len(schedule)) // THREADS)
    return CELL + worker("this.f();", "void f() { this.f(); } ") + main_class(THREADS), schedule


def prints(entries: int) -> Made:
    body = "System.out.println(7); " * 5000
    return f"class Main {{ void main() {{ while (true) {{ {body}}} }} }}\n", [0] * entries


KINDS = {"workers": workers, "objects": objects, "deep": deep, "prints": prints}


def main() -> None:
    parser = words_of(__doc__)
    parser.add_argument("kind", metavar="KIND", choices=sorted(KINDS))
    parser.add_argument("source", metavar="SOURCE")
    parser.add_argument("schedule", metavar="SCHEDULE")
    parser.add_argument("--share", metavar="N", type=count_of, default=1, help="the N-th part of the entries")
    given = parser.parse_args()
    text, schedule = KINDS[given.kind](ENTRIES // given.share)
    with open(given.source, "w", encoding="ascii") as file:
        file.write(text)
    with open(given.schedule, "w", encoding="ascii") as file:
        file.write(written(schedule))


if __name__ == "__main__":
    main()
