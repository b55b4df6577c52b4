#!/usr/bin/env python3
"""Measures atomic-java beside javac on files of the JDK's sources, those of the distribution's package
openjdk-17-source: a hundred, java.util.concurrent with its packages and twelve large classes of java.util (81,928
lines); or with --files as many as are asked for, the first ones of java.util and further packages.

Both judge or compile the same sources, by turns, so that what else the machine does falls on both. A line for each turn
says what each took by the clock, of processors (its children's too) and of memory, its status, and how many others
waited for a processor; the last lines have the medians and their ratios. A source that javac refuses, since the
installed JDK is an older one, is left out by --without.
"""
import argparse
import os
import statistics
import subprocess
import sys
import tempfile
import time
import zipfile
from dataclasses import dataclass
from pathlib import Path
from typing import Optional

from java_sources import PROGRAM

PACKAGES = ("java/util/concurrent", "java/util/concurrent/atomic", "java/util/concurrent/locks")
LARGE = (
    "ArrayDeque HashMap Hashtable IdentityHashMap LinkedHashMap LinkedList Random Stack Timer TreeMap TreeSet Vector"
)
MANY = (
    "java/util java/util/concurrent java/util/concurrent/atomic java/util/concurrent/locks java/util/stream "
    "java/util/zip java/util/jar java/util/regex java/util/function java/io java/net java/text java/time "
    "java/time/chrono java/time/format java/time/temporal java/time/zone java/nio/charset java/nio/file "
    "java/nio/channels java/security java/security/cert java/security/spec java/lang java/lang/ref java/lang/reflect "
    "java/lang/invoke"
).split()
MODULE = "java.base"


@dataclass(frozen=True)
class Taken:
    """What a run takes: seconds by the clock and of processors, megabytes of its largest process; and its status."""

    clock: float
    processors: float
    memory: float
    status: int


def names(packed: zipfile.ZipFile, count: Optional[int]) -> list[str]:
    """The sources that are measured, as the module has them: a hundred, or the first of many packages."""
    every = sorted(name.removeprefix(f"{MODULE}/") for name in packed.namelist() if name.startswith(f"{MODULE}/"))
    plain = [name for name in every if name.endswith(".java") and not name.endswith("-info.java")]
    if count is not None:
        return [name for package in MANY for name in plain if name.rpartition("/")[0] == package][:count]
    wanted = {f"java/util/{name}.java" for name in LARGE.split()}
    return [name for name in plain if name in wanted or name.rpartition("/")[0] in PACKAGES]


def sources(archive: Path, folder: Path, count: Optional[int], without: list[str]) -> list[str]:
    """Unpacks the sources into a folder; their names there."""
    found = []
    with zipfile.ZipFile(archive) as packed:
        for name in names(packed, None if count is None else count + len(without)):
            if Path(name).stem not in without:
                path = folder / name
                path.parent.mkdir(parents=True, exist_ok=True)
                path.write_bytes(packed.read(f"{MODULE}/{name}"))
                found.append(str(path))
    return sorted(found[:count])


def taken(words: list[str]) -> Taken:
    """What a command takes."""
    begun = time.monotonic()
    with subprocess.Popen(words, stdout=subprocess.DEVNULL, stderr=subprocess.DEVNULL) as run:
        _, status, usage = os.wait4(run.pid, 0)
        run.returncode = os.waitstatus_to_exitcode(status)
    clock = time.monotonic() - begun
    return Taken(clock, usage.ru_utime + usage.ru_stime, usage.ru_maxrss / 1024, run.returncode)


def main() -> None:
    """Measures by turns."""
    parser = argparse.ArgumentParser(description=__doc__, formatter_class=argparse.RawDescriptionHelpFormatter)
    parser.add_argument("archive", type=Path, help="src.zip of the package openjdk-17-source")
    parser.add_argument("--turns", type=int, default=3, help="how often each is run (default: 3)")
    parser.add_argument("--program", type=Path, action="append", help="the launchers (default: java/out/atomic-java)")
    parser.add_argument("--files", type=int, help="so many files (default: the hundred)")
    parser.add_argument("--without", nargs="*", default=[], metavar="CLASS", help="classes that are left out")
    given = parser.parse_args()
    with tempfile.TemporaryDirectory() as folder:
        files = sources(given.archive, Path(folder), given.files, given.without)
        words = Path(folder) / "words"
        words.write_text("".join(f"{file}\n" for file in files), encoding="utf-8")
        patch = ["--patch-module", f"{MODULE}={folder}", f"@{words}"]
        commands = {"javac": ["javac", "-nowarn", "-proc:none", "-d", f"{folder}/classes", *patch]}
        for program in given.program or [PROGRAM]:
            commands[str(program)] = [str(program), "--public", "--infer", *patch]
        told: dict[str, list[Taken]] = {name: [] for name in commands}
        for _ in range(given.turns):
            for name, command in commands.items():
                run = taken(command)
                told[name].append(run)
                print(
                    f"{name}: {run.clock:.1f} s by the clock, {run.processors:.1f} of processors, {run.memory:.0f} MB, "
                    f"status {run.status}, load {os.getloadavg()[0]:.1f}",
                    flush=True,
                )
    medians = {
        name: tuple(statistics.median(kind) for kind in zip(*((run.clock, run.processors, run.memory) for run in each)))
        for name, each in told.items()
    }
    for name, (clock, processors, memory) in medians.items():
        ratios = f"{clock / medians['javac'][0]:.2f} and {processors / medians['javac'][1]:.2f} times javac's"
        print(f"{name}: medians {clock:.1f} s by the clock, {processors:.1f} of processors: {ratios}; {memory:.0f} MB")
    sys.exit(0 if files else 1)


if __name__ == "__main__":
    main()
