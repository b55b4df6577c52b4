#!/usr/bin/env python3
"""try_logs.py [-n NUMBER] [-s SEED]: random logs, judged by judge_log.py, and each answer looked at.

Threads with random scripts run under a random scheduler, which writes a log; a part of the logs is damaged then: lines
are swapped, dropped, repeated or changed. A log that is judged serial must have a serial order, and that is made here,
from the commit places of its blocks, and run again: each thread's lines in their own order, each possible where it
stands, the same end, no block interrupted. A log that stops at a line must be possible up to there.
"""
from __future__ import annotations

import random
import sys
from collections.abc import Iterable, Mapping
from dataclasses import dataclass, field
from typing import Optional

from command_line import count_of, words_of
from judge_log import Guess, Judge, judge

# The words of a line, and those of a line whose value the run gives.
Line = list[str]
Open = list[Optional[str]]

KINDS_LEFT = ("left", "other")


def access(chance: random.Random, places: str) -> Open:
    """A line that touches one of the places."""
    place = chance.choice(places)
    lines: list[Open] = [
        ["read", place, None],
        ["write", place, str(chance.randrange(3))],
        ["change", place, None, str(chance.randrange(3))],
    ]
    return chance.choice(lines)


def guarded(chance: random.Random) -> list[Open]:
    """Some lines under a lock that most often guards what they touch."""
    lock = chance.choice("lm")
    own = "x" if lock == "l" else "y"
    inside = [access(chance, own if chance.random() < 0.95 else "xyz") for _ in range(chance.randrange(3))]
    if chance.random() < 0.2:
        inside = [["take", lock], *inside, ["give", lock]]
    return [["take", lock], *inside, ["give", lock]]


def script(chance: random.Random, thread: str, others: list[str]) -> list[Open]:
    """What a thread does: lines of words, in blocks or not."""
    lines: list[Open] = []
    for _ in range(chance.randrange(1, 4)):
        body: list[Open] = []
        for _ in range(chance.choice([1, 1, 1, 2])):
            body += guarded(chance) if chance.random() < 0.9 else [access(chance, "z")]
        if chance.random() < 0.6:
            name = chance.choice(["A", "B"])
            body = [["begin", name], *body, ["end"]]
        lines += body
    for other in others:
        lines.insert(chance.randrange(len(lines) + 1), ["start", other])
        if chance.random() < 0.5:
            lines.append(["join", other])
    if chance.random() < 0.7 or others == []:
        lines.append(["stop"])
    return [[thread, *line] for line in lines]


class World:
    """Locks, places and threads as they are; a line is possible or not."""

    def __init__(self, places: Mapping[str, str], absent: Iterable[str]) -> None:
        self.locks: dict[str, tuple[str, int]] = {}
        self.places, self.absent = dict(places), set(absent)
        self.ended: set[str] = set()
        self.depth: dict[str, int] = {}

    def possible(self, line: Open) -> bool:
        thread, deed = str(line[0]), line[1]
        if thread in self.absent or thread in self.ended:
            return False
        if deed == "take":
            return self.locks.get(str(line[2]), (thread, 0))[0] == thread
        if deed == "give":
            return str(line[2]) in self.locks and self.locks[str(line[2])][0] == thread
        if deed in ("read", "change"):
            return line[3] is None or self.places.get(str(line[2]), "0") == line[3]
        if deed == "start":
            return line[2] in self.absent
        if deed == "join":
            return line[2] in self.ended
        if deed == "end":
            return self.depth.get(thread, 0) > 0
        return True

    def do(self, line: Line) -> None:
        thread, deed = line[0], line[1]
        if deed == "take":
            self.locks[line[2]] = (thread, self.locks.get(line[2], (thread, 0))[1] + 1)
        elif deed == "give":
            count = self.locks[line[2]][1] - 1
            if count:
                self.locks[line[2]] = (thread, count)
            else:
                del self.locks[line[2]]
        elif deed in ("write", "change"):
            self.places[line[2]] = line[-1]
        elif deed == "start":
            self.absent.discard(line[2])
        elif deed == "stop":
            self.ended.add(thread)
        elif deed == "begin":
            self.depth[thread] = self.depth.get(thread, 0) + 1
        elif deed == "end":
            self.depth[thread] -= 1

    def state(self) -> tuple[dict[str, tuple[str, int]], dict[str, str], set[str], set[str]]:
        return self.locks, {p: v for p, v in self.places.items() if v != "0"}, self.absent, self.ended


def run(chance: random.Random, crowd: int) -> list[Line]:
    """A log of a run: scripts under a random scheduler, until none can go on."""
    names = [f"t{number}" for number in range(chance.randrange(2, 5))]
    scripts = {
        name: script(chance, name, names[1:] if name == "t0" and chance.random() < 0.5 else []) for name in names
    }
    started = {str(line[2]) for lines in scripts.values() for line in lines if line[1] == "start"}
    world = World({}, started)
    log: list[Line] = []
    while True:
        ready = [name for name in names if scripts[name] and world.possible(scripts[name][0])]
        if not ready:
            return log
        name = chance.choice(ready)
        for _ in range(chance.choice([1, 1, 3, crowd])):
            if scripts[name] and world.possible(scripts[name][0]):
                wanted = scripts[name].pop(0)
                line = [world.places.get(str(wanted[2]), "0") if word is None else word for word in wanted]
                world.do(line)
                log.append(line)


def damaged(chance: random.Random, log: list[Line]) -> list[Line]:
    """A log in which some lines were swapped, dropped, repeated or changed."""
    log = [list(line) for line in log]
    for _ in range(chance.randrange(1, 3)):
        if len(log) < 2:
            return log
        at, how = chance.randrange(len(log)), chance.randrange(4)
        if how == 0:
            other = chance.randrange(len(log))
            log[at], log[other] = log[other], log[at]
        elif how == 1:
            del log[at]
        elif how == 2:
            log.insert(chance.randrange(len(log)), list(log[at]))
        else:
            line = log[at]
            word = chance.randrange(len(line))
            line[word] = chance.choice(["t0", "t1", "l", "m", "x", "0", "1", "read", "take", "stop"])
    return log


def first_world(log: list[Line]) -> World:
    """What held before: each place what was seen first, each thread that is started wasn't there."""
    places: dict[str, str] = {}
    absent: set[str] = set()
    seen: set[str] = set()
    for line in log:
        seen.add(line[0])
        if line[1] in ("read", "change"):
            places.setdefault(line[2], line[3])
        elif line[1] == "write":
            places.setdefault(line[2], "0")
        elif line[1] == "start" and line[2] not in seen:
            absent.add(line[2])
        if line[1] in ("start", "join"):
            seen.add(line[2])
    return World(places, absent)


def replay(log: list[Line]) -> tuple[Optional[int], World]:
    """The first line that isn't possible where it stands, and the world there."""
    world = first_world(log)
    for number, line in enumerate(log, 1):
        if not world.possible([*line]):
            return number, world
        world.do(line)
    return None, world


def kinds_of(log: list[Line]) -> list[str]:
    """The kind of each line."""
    guess = Guess()
    lines = [[word.encode() for word in line] for line in log]
    for words in lines:
        guess.note(words)
    run_of = Judge("log", guess.guards())
    return [run_of.turn(number, words) for number, words in enumerate(lines, 1)]


@dataclass
class Unit:
    """Lines of one thread that nothing may stand between: a block, or a line outside of all blocks."""

    lines: list[Line] = field(default_factory=list)
    commit: Optional[int] = None
    last: int = 0

    def place(self) -> int:
        """Where the unit takes effect."""
        return self.last if self.commit is None else self.commit


def serial_order(log: list[Line]) -> list[Line]:
    """The units of a log in order of their commit places."""
    units: list[Unit] = []
    open_units: dict[str, Unit] = {}
    depth: dict[str, int] = {}
    for place, (line, kind) in enumerate(zip(log, kinds_of(log))):
        thread = line[0]
        depth[thread] = depth.get(thread, 0) + (line[1] == "begin") - (line[1] == "end")
        unit = open_units.setdefault(thread, Unit())
        unit.lines.append(line)
        unit.last = place
        if kind in KINDS_LEFT and unit.commit is None:
            unit.commit = place
        if depth[thread] == 0:
            units.append(unit)
            del open_units[thread]
    assert not open_units
    units.sort(key=Unit.place)
    return [line for unit in units for line in unit.lines]


def wrong_order(log: list[Line], world: World) -> Optional[str]:
    """What is wrong with the serial order of a log that ends in this world; none where nothing is."""
    order = serial_order(log)
    again = first_world(log)
    for line in order:
        if not again.possible([*line]):
            return f"the serial order can't be: {line}"
        again.do(line)
    if again.state() != world.state():
        return "the serial order ends otherwise"
    depth: dict[str, int] = {}
    for one, two in zip(order, order[1:]):
        depth[one[0]] = depth.get(one[0], 0) + (one[1] == "begin") - (one[1] == "end")
        if depth[one[0]] and two[0] != one[0]:
            return "the serial order interrupts a block"
    return None


def wrong_answer(log: list[Line], status: int, lines: list[str]) -> Optional[str]:
    """What is wrong with an answer; none where nothing is."""
    if status == 1:
        return None
    stop, world = replay(log)
    if status == 3 and (stop is None or not lines[0].startswith(f"log:{stop}:")):
        return f"stops at another line than {stop}"
    if status == 0:
        return "judged serial, but a line isn't possible" if stop is not None else wrong_order(log, world)
    return None if status in (2, 3, 4) else f"status {status}"


def main() -> None:
    parser = words_of(__doc__)
    parser.add_argument("-n", metavar="NUMBER", type=count_of, default=10000, help="how many logs (default: 10000)")
    parser.add_argument("-s", metavar="SEED", type=count_of, default=1, help="the first seed (default: 1)")
    words = parser.parse_args()
    counts: dict[int, int] = {}
    for seed in range(words.s, words.s + words.n):
        chance = random.Random(seed)
        log = run(chance, 9)
        if chance.random() < 0.4:
            log = damaged(chance, log)
        text = "".join(" ".join(line) + "\n" for line in log).encode()
        status, lines = judge("log", text)
        wrong = wrong_answer(log, status, lines)
        if wrong:
            sys.exit(f"seed {seed}: {wrong}\n{text.decode()}{lines}")
        counts[status] = counts.get(status, 0) + 1
    print(f"{words.n} logs, by status: {dict(sorted(counts.items()))}")


if __name__ == "__main__":
    main()
