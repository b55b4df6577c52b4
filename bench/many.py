#!/usr/bin/env python3
"""Writes many random sources, in folders of 1,000 (make), and times the ways of docs/many.md on them, on one, two and
four processes (measure).

`measure` wants `atomic` and `atomic_why` in the path, and writes a row of a table for each way: seconds from begin to
end, the least of so many rounds (1 unless said), and the least processor seconds of all processes together. Load
beside it makes the first greater, and hardly the second.
"""
from __future__ import annotations

import os
import random
import resource
import subprocess
import time

from command_line import count_of, words_of
from random_shapes import workers
from random_source import Generator

WORDS = ("guarded_by", "write_guarded_by")
WAYS = [
    ("check, by `xargs`", "find . -name '*.java' -print0 | xargs -0 -n 1 -P {} atomic check > verdicts.txt"),
    ("explain, by `xargs`", "find . -name '*.java' -print0 | xargs -0 -n 1 -P {} atomic_why > refused.txt"),
    ("explain, by `parallel`", "find . -name '*.java' | parallel -j {} atomic_why > refused.txt"),
    ("write books", "find . -name '*.java' -print0 | xargs -0 -n 1 -P {} sh -c 'atomic derive \"$0\" > \"$0.book\"'"),
    (
        "verify books",
        "find . -name '*.java' -print0 | xargs -0 -n 1 -P {} sh -c 'atomic verify \"$0\" \"$0.book\"' > verdicts.txt",
    ),
]


def source(number: int) -> str:
    chooser = random.Random(number)
    if number % 2:
        return workers(chooser, WORDS, chooser.random() < 0.5)
    return Generator(number, calm=True, words=WORDS, extends=chooser.random() < 0.5).source()


def make(folder: str, count: int) -> None:
    for number in range(count):
        inside = os.path.join(folder, f"{number // 1000:02}")
        os.makedirs(inside, exist_ok=True)
        with open(os.path.join(inside, f"S{number:05}.java"), "w", encoding="ascii") as file:
            file.write(source(number))


def spent() -> float:
    used = resource.getrusage(resource.RUSAGE_CHILDREN)
    return used.ru_utime + used.ru_stime


def timed(command: str, folder: str) -> tuple[float, float]:
    """Seconds from begin to end, and processor seconds."""
    begun, before = time.perf_counter(), spent()
    subprocess.run(command, shell=True, cwd=folder, stderr=subprocess.DEVNULL, check=False)
    return time.perf_counter() - begun, spent() - before


def measure(folder: str, rounds: int) -> None:
    print("| way | one process | two | four | processor seconds |\n|---|---|---|---|---|")
    for name, command in WAYS:
        runs = {}
        for processes in (1, 2, 4):
            runs[processes] = [timed(command.format(processes), folder) for _ in range(rounds)]
        times = " | ".join(f"{min(seconds for seconds, _ in runs[processes]):.0f}" for processes in runs)
        used = min(used for tries in runs.values() for _, used in tries)
        print(f"| {name} | {times} | {used:.0f} |", flush=True)


def main() -> None:
    parser = words_of(__doc__)
    parser.add_argument("what", choices=["make", "measure"])
    parser.add_argument("folder", metavar="FOLDER")
    text = "so many sources (10,000), or so many rounds (1)"
    parser.add_argument("count", metavar="COUNT", type=count_of, nargs="?", help=text)
    given = parser.parse_args()
    if given.what == "make":
        make(given.folder, 10_000 if given.count is None else given.count)
    else:
        measure(given.folder, 1 if given.count is None else given.count)


if __name__ == "__main__":
    main()
