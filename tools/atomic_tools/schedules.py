"""Schedules as texts: thread numbers with blanks between, `t*n` for n equal neighbours, and comments behind `#`."""
from __future__ import annotations

import bisect
import itertools
import re
from collections.abc import Iterable

from .command import Failed

MOST_ENTRIES = 200_000
ENTRY = re.compile(r"([0-9]{1,20})(?:\*([0-9]{1,20}))?")


def read_schedule(text: str) -> list[int]:
    """The entries of a schedule that the program reads as one."""
    entries: list[int] = []
    for word in re.sub(r"#[^\n]*", " ", text).split():
        found = ENTRY.fullmatch(word)
        if not found or len(entries) + int(found[2] or 1) > MOST_ENTRIES:
            raise Failed(f"no schedule: {word}")
        entries += [int(found[1])] * int(found[2] or 1)
    return entries


def groups_of(schedule: Iterable[int]) -> list[tuple[int, int]]:
    """Each thread with the number of its neighbouring entries."""
    return [(thread, len(list(same))) for thread, same in itertools.groupby(schedule)]


def word_of(thread: int, times: int) -> str:
    return f"{thread}*{times}" if times > 1 else str(thread)


def written(schedule: Iterable[int]) -> str:
    """A schedule as the program writes one."""
    return " ".join(word_of(*group) for group in groups_of(schedule))


class Fronts:
    """The first entries of a schedule, as texts."""

    def __init__(self, schedule: Iterable[int]) -> None:
        self.groups = groups_of(schedule)
        self.words = [word_of(*group) for group in self.groups]
        self.ends = list(itertools.accumulate(times for _, times in self.groups))

    def text(self, count: int) -> str:
        whole = bisect.bisect_right(self.ends, count)
        left = count - (self.ends[whole - 1] if whole else 0)
        return " ".join(self.words[:whole] + ([word_of(self.groups[whole][0], left)] if left else []))
