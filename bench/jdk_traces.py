#!/usr/bin/env python3
"""jdk_traces.py PROGRAM [--runs NUMBER] [--logs FOLDER]: logs of real runs of classes of the JDK, judged by PROGRAM
(`atomic_trace`).

Of each class a copy is made under another name in the same package, from the sources of the JDK at hand (--sources, as
jdk.sh finds them), and logged by atomic-java. A driver of bench/traces calls it: three threads, on two objects, under
random schedules, on the JVM itself. Each public call that ended is a block. Of each driver it tells how many logs have
which status; how many have a block that was really torn, so that no order of the same accesses has it in one piece; and
what PROGRAM says of the first torn log. Neither copies nor logs stay, but with --logs.
"""
from __future__ import annotations

import re
import shutil
import subprocess
import sys
import tempfile
import zipfile
from collections import Counter, defaultdict
from collections.abc import Iterator
from dataclasses import dataclass
from pathlib import Path

from command_line import count_of, program_of, words_of
from java_logs import ACCESSES, Block, Event, as_log, blocks_of, events_of, with_held
from java_sources import PROGRAM, TOP

DRIVERS = TOP / "bench" / "traces"
# Each driver, and the classes that are copied for it.
COPIED = {
    "StringBufferJoins": ["java/lang/StringBuffer", "java/lang/AbstractStringBuilder"],
    "StringBufferNeighbours": ["java/lang/StringBuffer", "java/lang/AbstractStringBuilder"],
    "VectorJoins": ["java/util/Vector"],
    "VectorNeighbours": ["java/util/Vector"],
    "StackNeighbours": ["java/util/Stack", "java/util/Vector"],
    "HashtableNeighbours": ["java/util/Hashtable"],
}
FAST = ["-XX:TieredStopAtLevel=1", "-XX:+UseSerialGC"]
PATCHED = ["--add-reads", "java.base=ALL-UNNAMED", "--patch-module"]


def copied(archive: zipfile.ZipFile, names: list[str], folder: Path) -> list[str]:
    """Writes the classes under other names; the files."""
    files = []
    for name in names:
        text = archive.read(f"java.base/{name}.java").decode()
        for each in names:
            text = re.sub(rf"\b{each.rpartition('/')[2]}\b", "Copied" + each.rpartition("/")[2], text)
        # A sealed class would have to name its copies.
        text = re.sub(r"\bpermits [^{]*\{", "{", re.sub(r"\bsealed (?=class\b)", "", text))
        package, _, simple = name.rpartition("/")
        path = folder / package / f"Copied{simple}.java"
        path.parent.mkdir(parents=True, exist_ok=True)
        path.write_text(text, encoding="utf-8")
        files.append(str(path))
    return files


def done(words: list[str]) -> str:
    """Runs a command that has to succeed; what it says."""
    ran = subprocess.run(words, capture_output=True, text=True, check=False)
    if ran.returncode not in (0, 2):
        sys.exit(f"jdk_traces.py: {' '.join(words[:2])} ended with {ran.returncode}: {ran.stderr[:400]}")
    return ran.stdout


def run_of(driver: str, archive: zipfile.ZipFile, program: Path, runs: int, work: Path) -> list[Path]:
    """Makes the runs of a driver; their logs."""
    sources, logged, classes, logs = work / "sources", work / "logged", work / "classes", work / "logs"
    files = copied(archive, COPIED[driver], sources)
    patch, jar = f"java.base={sources}", program.resolve().parent / "atomic-java.jar"
    done([str(program), "--public", "--infer", "--patch-module", patch, "--log", str(logged), *files])
    package = COPIED[driver][0].rpartition("/")[0]
    shutil.copy(DRIVERS / f"{driver}.java", logged / package)
    copies = [str(each) for each in logged.rglob("*.java")]
    patch = f"java.base={logged}"
    done(["javac", "-nowarn", "-proc:none", *PATCHED, patch, "-cp", str(jar), "-d", str(classes), *copies])
    logs.mkdir()
    opened = ["--add-opens", f"java.base/{package.replace('/', '.')}=ALL-UNNAMED"]
    words = [f"-Xbootclasspath/a:{jar}", *PATCHED, f"java.base={classes}", *opened, "atomic.trace.Runner"]
    done(["java", *FAST, *words, f"{package.replace('/', '.')}.{driver}", "1", str(runs), str(logs)])
    return sorted(logs.glob("*.log"))


def is_torn(block: Block, events: list[Event]) -> bool:
    """Whether another thread wrote a place between two accesses of the block to it. No order of the same accesses, each
    with what it saw, has such a block in one piece."""
    mine: set[str] = set()
    foreign: set[str] = set()
    for event in events[block.events[0].line - 1 : block.events[-1].line]:
        if event.action not in ACCESSES:
            continue
        if event.thread != block.thread:
            foreign |= {event.target} & mine if event.action != "read" else set()
        elif event.target in foreign:
            return True
        else:
            mine.add(event.target)
    return False


def majority_guards(events: list[Event]) -> str:
    """For each place the lock that most accesses hold, as a text of guards; nothing where none holds one."""
    held: dict[str, Counter[str]] = defaultdict(Counter)
    for event, locks in with_held(events):
        if event.action in ACCESSES:
            held[event.target].update(locks)
    return "".join(f"{place} lock {locks.most_common(1)[0][0]}\n" for place, locks in held.items() if locks)


def without_beginning(text: str) -> str:
    """A log from the first start of a thread on: before it there was one thread alone."""
    lines = text.splitlines(keepends=True)
    first = next(number for number, line in enumerate(lines) if line.split()[1] == "start")
    return "".join(lines[first:])


@dataclass(frozen=True)
class Judged:
    """What PROGRAM says of a log by guessed guards, and by those that most accesses keep; its torn blocks."""

    status: int
    by_majority: str
    torn: set[str]


def judged(program: str, log: Path) -> Judged:
    """Judges a log, which gets the format of docs/traces.md."""
    events = events_of(log)
    promised = {event.target for event in events if event.action == "begin"}
    torn = {block.name for block in blocks_of(events, promised) if block.ended and is_torn(block, events)}
    text = as_log(events, log.read_text(encoding="utf-8").splitlines(), promised, {})
    log.write_text(without_beginning(text), encoding="utf-8")
    guards = log.with_suffix(".guards")
    guards.write_text(majority_guards(events), encoding="utf-8")
    words = [[program, log.name], [program, log.name, "--guards", guards.name]]
    ran = [subprocess.run(each, cwd=log.parent, capture_output=True, text=True, check=False) for each in words]
    return Judged(ran[0].returncode, ran[1].stdout, torn)


def look(driver: str, program: str, logs: list[Path]) -> Iterator[str]:
    """The lines that are told of a driver's logs."""
    statuses: Counter[int] = Counter()
    torn: Counter[str] = Counter()
    shown = ""
    for log in logs:
        found = judged(program, log)
        statuses[found.status] += 1
        torn.update(found.torn)
        shown = shown or (found.by_majority if found.torn else "")
        if found.torn and found.status == 0:
            yield f"{driver}: WRONG: {log.name} has a torn block and is called serial"
    told = ", ".join(f"{count} with status {status}" for status, count in sorted(statuses.items()))
    yield f"{driver}: {len(logs)} logs, {told}; torn: {dict(torn) or 'none'}"
    yield from (f"    {line}" for line in shown.splitlines())


def main() -> int:
    parser = words_of(__doc__)
    parser.add_argument("program", metavar="PROGRAM", type=program_of, help="the built `atomic_trace`, proved or not")
    parser.add_argument("--sources", metavar="ZIP", required=True, help="the sources of the JDK")
    parser.add_argument("--java", metavar="FILE", type=Path, default=PROGRAM, help="the launcher of atomic-java")
    parser.add_argument("--runs", metavar="NUMBER", type=count_of, default=20, help="how many of each (default: 20)")
    parser.add_argument("--logs", metavar="FOLDER", type=Path, help="where the logs stay")
    parser.add_argument("drivers", metavar="DRIVER", nargs="*", help="drivers of bench/traces (default: all)")
    given, wrong = parser.parse_args(), False
    with zipfile.ZipFile(given.sources) as archive:
        for driver in given.drivers or COPIED:
            with tempfile.TemporaryDirectory() as work:
                logs = run_of(driver, archive, given.java, given.runs, Path(work))
                for line in look(driver, given.program, logs):
                    print(line, flush=True)
                    wrong |= "WRONG" in line
                if given.logs:
                    shutil.copytree(Path(work) / "logs", given.logs / driver, dirs_exist_ok=True)
    return 1 if wrong else 0


if __name__ == "__main__":
    sys.exit(main())
