#!/usr/bin/env python3
"""Compares the answers of `atomic` and of `bench/plain`.

Both programs get the same sources: worked rows with the answers that are wanted, the files of examples/, those of
make_source.py and make_checked.py, random programs, and damaged sources; where `atomic` has the commands `run` and
`serialise`, random schedules too, and `serialise-open` where it has that. PROGRAM is the built `atomic`; without it
the answers come from `rt try` in crates/atomic_cli, which needs no proof, and these two commands are left out. A
place of `too deep` isn't the only right one, so where both say that at different places it is counted apart. The exit
status is 0 where no answer differs.
"""
from __future__ import annotations

import collections
import os
import random
import re
import subprocess
import shutil
import sys
import tempfile
from collections.abc import Callable, Iterable, Iterator, Sequence
from dataclasses import dataclass
from typing import Optional, Union

import row_parts
import rows
from command_line import HERE, count_of, program_of, words_of
from random_shapes import Crowd, damaged, deep, workers
from random_source import Generator
from schedules import drawn, runnable, written

# a status and what was written
Reply = tuple[int, bytes]

COMMANDS = ["check", "print"]


def run(words: Sequence[str], folder: Optional[str] = None) -> subprocess.CompletedProcess[bytes]:
    return subprocess.run(words, capture_output=True, cwd=folder, check=False)


class Program:
    """A built program: `run` gives its status and its text."""

    def __init__(self, path: str) -> None:
        self.path = path

    def answers(self, folder: str, names: Iterable[str], command: str) -> dict[str, Reply]:
        return {name: self.answer(folder, command, name) for name in names}

    def answer(self, folder: str, *words: str) -> Reply:
        done = run([self.path, *words], folder)
        return done.returncode, done.stdout


class Tried:
    """The program before its proof, by `rt try --cases`."""

    def answers(self, folder: str, names: Iterable[str], command: str) -> dict[str, Reply]:
        words = ["rt", "try", "--cases", os.path.abspath(folder), "--", command, "{}"]
        done = run(words, os.path.join(HERE, "..", "crates", "atomic_cli"))
        statuses = dict(re.findall(r"^case=(\S+) run=ended status=(\d+)", done.stderr.decode(), re.M))
        parts = re.split(rb"^== (\S+)\n", done.stdout, flags=re.M)
        texts = dict(zip(parts[1::2], parts[2::2]))
        return {name: (int(statuses.get(name, -1)), texts.get(name.encode(), b"")) for name in names}


Judge = Union[Program, Tried]


def write(folder: str, name: str, data: row_parts.Text) -> None:
    with open(os.path.join(folder, name), "wb") as file:
        file.write(data if isinstance(data, bytes) else data.encode())


def knows(programs: Iterable[Judge], folder: str, source: str) -> bool:
    """Whether every program takes the source for one of the grammar."""
    write(folder, "probe", source)
    known = all(p.answers(folder, ["probe"], "print")["probe"][0] == 0 for p in programs)
    os.remove(os.path.join(folder, "probe"))
    return known


def fixed_sources(extends: bool) -> Iterator[tuple[str, bytes]]:
    """The sources that other scripts and folders have."""
    families = ["line", "heirs", "inherited"] if extends else []
    examples = os.path.join(HERE, "..", "examples")
    for name in sorted(os.listdir(examples)):
        if name.endswith(".java"):
            with open(os.path.join(examples, name), "rb") as file:
                yield name, file.read()
    for size in (100, 3000, 131072, 262144):
        yield f"every_production_{size}", run([sys.executable, os.path.join(HERE, "make_source.py"), str(size)]).stdout
    for kind in "classes methods statements locks paths chain chain_back cycle".split() + families:
        yield f"many_{kind}", run([sys.executable, os.path.join(HERE, "make_checked.py"), kind]).stdout


def random_sources(options: Options, words: list[str], extends: bool) -> Iterator[tuple[str, bytes]]:
    """Random programs, some with classes that extend each other, some with many locks, high ones, and damaged ones."""
    chooser = random.Random(options.seed)
    for k in range(options.count):
        calm, slips = k % 3 > 0, 0.002 if k % 4 == 0 else 0.0
        source = Generator(chooser.getrandbits(64), slips, calm, words).source()
        yield f"random_{k}", source.encode()
        if extends:
            source = Generator(chooser.getrandbits(64), slips * 3, calm, words, True).source()
            yield f"family_{k}", source.encode()
        yield f"damaged_{k}", damaged(source, chooser)
        yield f"crowd_{k}", Crowd(chooser, words).source().encode()
        high = deep(chooser)
        yield f"high_{k}", high.encode()
        yield f"high_damaged_{k}", damaged(high, chooser)


def first_line(text: bytes) -> str:
    return text.split(b"\n")[0].decode("utf-8", "replace")[:90]


Answer = Callable[[list[int]], tuple[int, str]]
# a status and a text that are wanted; any text where it is None
Wanted = tuple[int, Optional[row_parts.Text]]


@dataclass(frozen=True)
class Options:
    """How many random sources, where chance begins, and where sources with a difference are kept."""

    count: int
    seed: int
    keep: Optional[str]


class Report:
    def __init__(self, folder: str, keep: Optional[str], extends: bool) -> None:
        self.folder, self.keep, self.extends = folder, keep, extends
        self.counts: collections.Counter[tuple[str, int]] = collections.Counter()
        self.differences, self.deep = 0, 0

    def tell(self, command: str, name: str, label: str, ours: Reply, theirs: Reply) -> None:
        """An answer that differs from the plain program's; the label says whose it is."""
        told = f"{label} {ours[0]} {first_line(ours[1])!r}, plain {theirs[0]} {first_line(theirs[1])!r}"
        print(f"DIFFERS: {command} {name}: {told}")
        self.differences += 1
        if self.keep:
            os.makedirs(self.keep, exist_ok=True)
            for file in ("a", "b") if name.startswith("schedule") else (name,):
                shutil.copy(os.path.join(self.folder, file), os.path.join(self.keep, f"{name} {file}"))

    def want(self, command: str, name: str, wanted: Wanted, plain: Reply) -> None:
        status, text = wanted
        data = text.encode() if isinstance(text, str) else text
        if status != plain[0] or data is not None and data != plain[1]:
            self.tell(command, name, "wanted", (status, data or b""), plain)

    def compare(self, command: str, name: str, atomic: Reply, plain: Reply) -> None:
        self.counts[command.partition(" ")[0] or "no words", atomic[0]] += 1
        if atomic == plain:
            return
        if first_line(atomic[1]).endswith("too deep") and first_line(plain[1]).endswith("too deep"):
            self.deep += 1
            return
        self.tell(command, name, "atomic", atomic, plain)


def random_schedule(chooser: random.Random, answer: Answer) -> str:
    schedule = drawn(chooser)
    if chooser.random() < 0.7:
        schedule = runnable(schedule, answer, chooser)[0]
    text = written(schedule)
    if chooser.random() < 0.2:
        at = chooser.randrange(len(text))
        text = text[:at] + chooser.choice(["*", "x", "0", " # 1 *", "99999999999", "\t", "*200000 "]) + text[at:]
    return text


def compare_words(atomic: Judge, plain: Program, folder: str, report: Report) -> None:
    """Words that are no command, and files that can't be read or are too large."""
    write(folder, "large", b" " * 262145)
    write(folder, "a", "class Main { void main() { } }")
    one: list[list[str]] = [
        [],
        ["check"],
        ["-h"],
        ["Check", "a"],
        ["check", "a", "a"],
        ["print", "a", ""],
        ["check", ""],
        ["check", "."],
    ]
    two = [[command, name] for command in COMMANDS for name in ("missing", "large", "a")]
    if not isinstance(atomic, Program):
        return
    for words in one + two:
        report.compare(" ".join(words), "a", atomic.answer(folder, *words), plain.answer(folder, *words))


def answer_to(plain: Program, folder: str, schedule: list[int]) -> tuple[int, str]:
    write(folder, "b", written(schedule))
    status, text = plain.answer(folder, "run", "a", "b")
    return status, text.decode()


def compare_rows(atomic: Optional[Program], plain: Program, folder: str, extends: bool, report: Report) -> None:
    """Rows of the commands on schedules."""
    for number, (command, source, schedule, status, text) in enumerate(rows.schedule_rows(extends)):
        write(folder, "a", source)
        write(folder, "b", schedule)
        given = plain.answer(folder, command, "a", "b")
        report.want(command, f"schedule row {number}", (status, text), given)
        if atomic:
            report.compare(command, f"schedule row {number}", atomic.answer(folder, command, "a", "b"), given)


def with_schedules(atomic: Judge, folder: str) -> Optional[Program]:
    """The program, where it has got `run`."""
    write(folder, "a", "class Main { void main() { } }")
    write(folder, "b", "")
    if isinstance(atomic, Program) and atomic.answer(folder, "run", "a", "b")[0] != 9:
        return atomic
    print("`run` and `serialise` aren't known to `atomic`: only the plain program is held against the rows")
    return None


def compare_schedules(programs: tuple[Program, Program], options: Options, words: list[str], report: Report) -> None:
    """Random schedules of random programs."""
    folder, extends = report.folder, report.extends
    commands = ["run", "serialise"]
    if programs[0].answer(folder, "serialise-open", "a", "b")[0] != 9:
        commands.append("serialise-open")
    chooser = random.Random(options.seed)
    for number in range(options.count):
        write(folder, "a", workers(chooser, words, extends and number % 2 == 0))
        write(folder, "b", random_schedule(chooser, lambda schedule: answer_to(programs[1], folder, schedule)))
        for command in commands:
            ours, theirs = (program.answer(folder, command, "a", "b") for program in programs)
            report.compare(command, f"schedule {number}", ours, theirs)


def main() -> None:
    parser = words_of(__doc__)
    parser.add_argument("--atomic", metavar="PROGRAM", type=program_of)
    parser.add_argument("--count", type=count_of, default=1000, help="so many random sources of each kind (1000)")
    parser.add_argument("--seed", type=count_of, default=1, help="where chance begins (1)")
    parser.add_argument("--keep", metavar="FOLDER", help="keep sources with a difference here")
    given = parser.parse_args()
    with tempfile.TemporaryDirectory() as folder:
        built = os.path.join(folder, "plain")
        words = [
            "rustc",
            "--edition",
            "2024",
            "-O",
            "-A",
            "dead_code",
            "-o",
            built,
            os.path.join(HERE, "plain", "main.rs"),
        ]
        subprocess.run(words, check=True)
        sources = os.path.join(folder, "sources")
        os.mkdir(sources)
        atomic: Judge = Program(given.atomic) if given.atomic else Tried()
        compare_all(atomic, Program(built), sources, Options(given.count, given.seed, given.keep))


def compare_sources(atomic: Judge, plain: Program, options: Options, words: list[str], report: Report) -> None:
    folder, extends = report.folder, report.extends
    names: list[str] = []
    wanted: dict[str, tuple[str, Wanted]] = {}
    for number, (command, source, status, text) in enumerate(rows.rows(len(words) > 1, extends)):
        name = f"row_{number}"
        wanted[name] = (command, (status, text))
        write(folder, name, source)
        names.append(name)
    for name, data in [*fixed_sources(extends), *random_sources(options, words, extends)]:
        write(folder, name, data)
        names.append(name)
    for command in COMMANDS:
        ours, theirs = atomic.answers(folder, names, command), plain.answers(folder, names, command)
        for name in names:
            report.compare(command, name, ours[name], theirs[name])
            if name in wanted and wanted[name][0] == command:
                report.want(command, name, wanted[name][1], theirs[name])


def compare_all(atomic: Judge, plain: Program, folder: str, options: Options) -> None:
    words = ["guarded_by"]
    if knows([atomic, plain], folder, "class A { int v write_guarded_by this; } "):
        words.append("write_guarded_by")
    else:
        print("`write_guarded_by` isn't known to `atomic`: rows and sources with it are left out")
    extends = knows([atomic, plain], folder, "class A extends A { } ")
    if not extends:
        print("`extends` isn't known to `atomic`: rows and sources with it are left out")
    report = Report(folder, options.keep, extends)
    compare_sources(atomic, plain, options, words, report)
    compare_words(atomic, plain, folder, report)
    able = with_schedules(atomic, folder)
    compare_rows(able, plain, folder, extends, report)
    if able:
        compare_schedules((able, plain), options, words, report)
    for (command, status), count in sorted(report.counts.items()):
        print(f"{command}: {count} sources with status {status}")
    print(f"{report.deep} told `too deep` at another place; {report.differences} differ")
    sys.exit(1 if report.differences else 0)


if __name__ == "__main__":
    main()
