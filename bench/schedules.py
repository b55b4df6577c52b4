"""Schedules as lists of thread numbers: random ones, and those of them that run."""
from __future__ import annotations

import random
import re
from collections.abc import Callable

# what a program answers to a schedule: the status and the text
Answer = Callable[[list[int]], tuple[int, str]]


def read(line: str) -> list[int]:
    schedule: list[int] = []
    for word in line.split():
        thread, _, times = word.partition("*")
        schedule += [int(thread)] * int(times or 1)
    return schedule


def written(schedule: list[int]) -> str:
    """The one line of a schedule: maximal groups of equal neighbours."""
    groups: list[list[int]] = []
    for thread in schedule:
        if groups and groups[-1][0] == thread:
            groups[-1][1] += 1
        else:
            groups.append([thread, 1])
    return " ".join(f"{thread}*{times}" if times > 1 else str(thread) for thread, times in groups) + "\n"


def drawn(chooser: random.Random) -> list[int]:
    """A random schedule of some threads; it may not run."""
    schedule = [0] * chooser.choice([5, 20, 40])
    threads = range(chooser.randint(2, 4))
    for _ in range(chooser.randint(0, 60)):
        schedule += [chooser.choice(threads)] * chooser.choice([1, 1, 2, 3, 8])
    return schedule


def runnable(schedule: list[int], answer: Answer, chooser: random.Random) -> tuple[list[int], int, str]:
    """The schedule without the entries that can't step, and with the ends of atomic calls where these come.

    `answer` gives the status and the text of `serialise` or `run`. The answer to the schedule comes with it.
    """
    status, text = answer(schedule)
    for _ in range(80):
        found = re.match(r"entry (\d+)", text)
        if status == 4 and found:
            place = int(found[1]) - 1
            group = next((k for k, t in enumerate(schedule[place:]) if t != schedule[place]), len(schedule) - place)
            schedule = schedule[:place] + schedule[place + group :]
        elif status == 5:
            schedule = schedule + [int(text.split()[1])] * chooser.choice([1, 5, 40])
        else:
            break
        status, text = answer(schedule)
    return schedule, status, text
