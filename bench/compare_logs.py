#!/usr/bin/env python3
"""compare_logs.py PROGRAM [-n NUMBER] [-s SEED]: holds what PROGRAM (`atomic_trace`) says of random logs against
judge_log.py.

The logs are those of try_logs.py: random threads under a random scheduler, some of them damaged. Some are cut off, of
some bytes are changed, and some are judged with guards that are given. Status and lines must be the same; with status 4
only the number of the line, since any thread that is inside a block may be named.
"""
from __future__ import annotations

import os
import random
import subprocess
import sys
import tempfile
from collections.abc import Iterator

from command_line import count_of, words_of
from judge_log import Refused, guards_of, judge
from try_logs import damaged, run

# What stands in place of some bytes of a text that is damaged.
CHANGES = [b"", b" ", b"\n", b"\r", b"\x7f", b"\xc3", b"t0", b"a" * 256]
GUARDS = ["lock l", "lock m", "thread t0", "thread t1", "free"]
NO_GUARDS = ["lock", "lock  l", "free x"]


def log_of(chance: random.Random) -> bytes:
    """A random log."""
    log = run(chance, 9)
    if chance.random() < 0.4:
        log = damaged(chance, log)
    if chance.random() < 0.1:
        log = log[: chance.randrange(len(log) + 1)]
    text = bytearray("".join(" ".join(line) + "\n" for line in log).encode())
    if text and chance.random() < 0.1:
        place = chance.randrange(len(text))
        text[place : place + chance.randrange(3)] = chance.choice(CHANGES)
    return bytes(text)


def guards_for(chance: random.Random) -> bytes | None:
    """A random text of guards for these logs; mostly none."""
    if chance.random() < 0.8:
        return None
    rows = []
    for place in "xyzx":
        if chance.random() < 0.8:
            kinds = GUARDS if chance.random() < 0.95 else NO_GUARDS
            rows.append(f"{place} {chance.choice(kinds)}\n")
    return "".join(rows).encode()


def wanted_of(name: str, text: bytes, guards: bytes | None) -> tuple[int, list[str]]:
    """What judge_log.py answers."""
    if guards is None:
        return judge(name, text)
    try:
        return judge(name, text, guards_of(name + ".guards", guards))
    except Refused as refused:
        return refused.status, list(refused.lines)


def place_of(line: str) -> str:
    """The file and the number of a line that tells a fault."""
    return ":".join(line.split(":")[:2])


def put(name: str, text: bytes) -> None:
    """Makes a file."""
    with open(name, "wb") as file:
        file.write(text)


def faults(program: str, folder: str, seeds: range, counts: dict[int, int]) -> Iterator[str]:
    """What differs, seed by seed."""
    name = os.path.join(folder, "log")
    for seed in seeds:
        chance = random.Random(seed)
        text, guards = log_of(chance), guards_for(chance)
        put(name, text)
        put(name + ".guards", guards or b"")
        words = [] if guards is None else ["--guards", name + ".guards"]
        said = subprocess.run([program, name, *words], capture_output=True, check=False)
        lines = said.stdout.decode("utf-8", "backslashreplace").splitlines()
        status, wanted = wanted_of(name, text, guards)
        counts[status] = counts.get(status, 0) + 1
        same = lines == wanted if status != 4 else place_of(lines[0]) == place_of(wanted[0])
        if said.returncode != status or not same:
            yield f"seed {seed}: {said.returncode} {lines}, wanted {status} {wanted}\n{text!r}\n{guards!r}"


def main() -> int:
    parser = words_of(__doc__)
    parser.add_argument("program", metavar="PROGRAM", help="the built `atomic_trace`, proved or not")
    parser.add_argument("-n", metavar="NUMBER", type=count_of, default=10000, help="how many logs (default: 10000)")
    parser.add_argument("-s", metavar="SEED", type=count_of, default=1, help="the first seed (default: 1)")
    words = parser.parse_args()
    counts: dict[int, int] = {}
    with tempfile.TemporaryDirectory() as folder:
        for fault in faults(words.program, folder, range(words.s, words.s + words.n), counts):
            print(fault)
            return 1
    print(f"{words.n} logs, by status {dict(sorted(counts.items()))}: status and lines agree")
    return 0


if __name__ == "__main__":
    sys.exit(main())
