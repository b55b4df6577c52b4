#!/usr/bin/env python3
"""Gives the commands the sources that are worst for them, up to the limit of 262,144 bytes, and what belongs to these:
the book that `derive` writes, the certificate that `blame` writes, a level for each class. A line for each run tells
the bytes of the source and of the other file, the status, seconds of the processor, the most memory, and how often the
time of half the source it took. A run that takes more seconds than --seconds is stopped.
"""
from __future__ import annotations

import os
import re
import subprocess
import tempfile
from typing import NamedTuple, Optional

import worst_sources
from command_line import PROGRAM, count_of, program_of, words_of
from worst_sources import FAMILIES, LAST, RUN_FAMILIES, Family

LIMIT = 262144
RUN_COMMANDS = ["run", "serialise", "serialise-open", "replay"]
SCHEDULE = b"0*200000\n"


def most(make: Family, size: int) -> Optional[str]:
    """What is made for the greatest number for which it has at most so many bytes, if there is one."""
    low, high = 2, size
    if len(make(low)) > size:
        return None
    while high - low > 1:
        middle = (low + high) // 2
        low, high = (middle, high) if len(make(middle)) <= size else (low, middle)
    return make(low)


def levels_of(source: str) -> str:
    """A level for each class in source order; a class has that of the class at the top of its line."""
    above: dict[str, str] = dict(re.findall(r"\bclass\s+(\w+)(?:\s+extends\s+(\w+))?", source))
    level = {name: place for place, name in enumerate(above, 1)}
    top: dict[str, str] = {}
    for name in above:
        line_up = [name]
        while above[line_up[-1]] and line_up[-1] not in top:
            line_up.append(above[line_up[-1]])
        end = top.get(line_up[-1], line_up[-1])
        top.update((each, end) for each in line_up)
    return "".join(f"{name} {level[top[name]]}\n" for name in above)


class Ran(NamedTuple):
    """What a run took, and what it wrote; the status is None where it was stopped."""

    status: Optional[int]
    seconds: float
    megabytes: float
    output: bytes


def run(words: list[str], seconds: int) -> Ran:
    """Runs a program for so many seconds of the processor, at most."""
    with tempfile.NamedTemporaryFile("r") as used:
        timed = ["/usr/bin/time", "--quiet", "-f", "%U %S %M", "-o", used.name, "prlimit", f"--cpu={seconds}", *words]
        done = subprocess.run(timed, stdout=subprocess.PIPE, stderr=subprocess.DEVNULL, check=False)
        user, system, kibibytes = used.read().split()[-3:]
    status = done.returncode if done.returncode < 128 else None
    return Ran(status, float(user) + float(system), int(kibibytes) / 1024, done.stdout)


class Case(NamedTuple):
    """The words of a command, and the bytes of the file beside the source."""

    words: list[str]
    other: int


def put(folder: str, name: str, text: bytes) -> str:
    """The path of a new file with this text."""
    path = os.path.join(folder, name)
    with open(path, "wb") as file:
        file.write(text)
    return path


def judging(program: str, maker: str, judge: str, source: str, seconds: int) -> Optional[Case]:
    """The command that judges what another writes of a source; none where that writes nothing."""
    ran = run([program, maker, source], seconds)
    if ran.status != 0:
        return None
    return Case([program, judge, source, put(os.path.dirname(source), judge, ran.output)], len(ran.output))


def case(program: str, command: str, folder: str, text: str, seconds: int) -> Optional[Case]:
    """A command with this source and what belongs to it."""
    shown = LAST * ("blame" in command and "void last(" not in text)
    source = put(folder, "source", (text + shown).encode())
    if command == "levels":
        levels = levels_of(text).encode()
        return Case([program, command, source, put(folder, command, levels)], len(levels))
    if command in RUN_COMMANDS:
        return Case([program, command, source, put(folder, "schedule", SCHEDULE)], len(SCHEDULE))
    if command == "verify":
        return judging(program, "derive", command, source, seconds)
    if command == "verify-blame":
        return judging(program, "blame", command, source, seconds)
    return Case([program, command, source], 0)


def row(program: str, command: str, family: str, text: str, seconds: int, before: float) -> float:
    """Prints the line of a command and a source, and gives its seconds."""
    with tempfile.TemporaryDirectory() as folder:
        of = case(program, command, folder, text, seconds)
        if of is None:
            return 0
        ran = run(of.words, seconds)
    cells = [command, family, f"{len(text):,}", f"{of.other:,}" if of.other else ""]
    cells += ["stopped" if ran.status is None else str(ran.status), f"{ran.seconds:.2f}", f"{ran.megabytes:.0f}"]
    cells += [f"{ran.seconds / before:.1f}" if before > 0.05 and ran.status is not None else ""]
    print("|", " | ".join(cells), "|", flush=True)
    return 0 if ran.status is None else ran.seconds


COMMANDS = ["check", "derive", "verify", "levels", "blame", "verify-blame"]


def commands_of(family: str) -> list[str]:
    """The commands that a family is made for."""
    return RUN_COMMANDS if family in RUN_FAMILIES else COMMANDS


def main() -> None:
    parser = words_of(__doc__)
    parser.epilog = worst_sources.__doc__
    parser.add_argument("program", metavar="PROGRAM", type=program_of, help=PROGRAM)
    parser.add_argument("families", metavar="FAMILY", nargs="*", choices=[[], *FAMILIES], help="these alone")
    every = COMMANDS + RUN_COMMANDS
    parser.add_argument("--command", action="append", choices=every, help="this command alone; may be given again")
    parser.add_argument("--limit", type=count_of, default=LIMIT, help="the most bytes of a source")
    parser.add_argument("--parts", type=count_of, default=4, help="sizes from the limit down, each half the one before")
    parser.add_argument("--seconds", type=count_of, default=60, help="the most seconds of a run")
    given = parser.parse_args()
    sizes = [given.limit >> part for part in range(given.parts)][::-1]
    print("| command | family | source | other file | status | seconds | MB | times half |")
    print("|---|---|---|---|---|---|---|---|")
    for family in given.families or FAMILIES:
        sources = [text for size in sizes if (text := most(FAMILIES[family], size - len(LAST))) is not None]
        for command in given.command or commands_of(family):
            before = 0.0
            for text in sources:
                before = row(given.program, command, family, text, given.seconds, before)


if __name__ == "__main__":
    main()
