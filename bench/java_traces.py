#!/usr/bin/env python3
"""Runs logged copies of Java sources under random schedules, and holds the logs against the verdicts and the skeletons
of atomic-java.

A field that is touched without its guard is told as an error, and those touches don't count against the others. Of each
method that is found atomic, each call's steps have to be a reducible word (right movers and both, at most one other
step, left movers and both), and each logged step has to stand on a path of the method's skeleton. The sources are those
of java/tests/larger and java/tests/users. With --logs FOLDER the logs stay there, in the format of docs/traces.md.
"""
import argparse
import re
import shutil
import subprocess
import sys
import tempfile
from collections import Counter
from dataclasses import dataclass, field
from pathlib import Path

from java_logs import as_log, behind_waits, blocks_of, counted, events_of, is_reducible, kinds_of, sharing_of
from java_paths import Method, lent_of, repeats_of, skeleton_of, unseen
from java_sources import PROGRAM, TOP, run

TESTS = TOP / "java" / "tests"
OPTIONS = re.compile(r"^// judged with: (.*)$", re.MULTILINE)
NAME = re.compile(r"^package ([\w.]+);", re.MULTILINE)
LONGEST = 300
FAST = ["-XX:TieredStopAtLevel=1", "-XX:+UseSerialGC"]


@dataclass
class Counts:
    """What was looked at: calls of methods that are found atomic, and of others; and what is wrong."""

    runs: int = 0
    calls: int = 0
    steps: int = 0
    others: int = 0
    broken: Counter[str] = field(default_factory=Counter)
    wrong: list[str] = field(default_factory=list)


@dataclass(frozen=True)
class Judged:
    """A source that was judged: its file, the class that is run, the lines of its errors, its skeleton, the looks in it
    that are no step where another place is next, and the places of steps that stand elsewhere in it."""

    path: Path
    name: str
    refused: frozenset[int]
    unguarded: frozenset[int]
    skeleton: list[Method]
    repeats: dict[str, str]
    lent: frozenset[str]


def judge(path: Path, folder: Path, program: Path) -> Judged | None:
    """Judges a source and writes its logged copy; none, and a line, where that can't be."""
    text = path.read_text(encoding="utf-8")
    options, package = OPTIONS.search(text), NAME.search(text)
    words = options[1].split() if options else []
    answer = run([*words, "--log", str(folder)], [path], program)
    if answer.status not in (0, 2):
        print(f"{path.name}: status {answer.status}: {(answer.rest + answer.lines)[:3]}")
        return None
    name = f"{package[1]}.{path.stem}" if package else path.stem
    errors = answer.errors_of(path)
    unguarded = frozenset(line.line for line in errors if line.text.endswith("found error"))
    skeleton = folder / "skeleton.txt"
    refused = frozenset(line.line for line in errors)
    return Judged(path, name, refused, unguarded, skeleton_of(skeleton), repeats_of(skeleton), lent_of(skeleton))


def compiled(folder: Path, archive: Path) -> bool:
    """Whether javac takes the copies in a folder."""
    copies = [str(each) for each in folder.rglob("*.java")]
    done = subprocess.run(
        ["javac", "-nowarn", "-proc:none", "-cp", str(archive), "-d", str(folder), *copies],
        capture_output=True,
        check=False,
    )
    if done.returncode:
        print(done.stderr.decode())
    return not done.returncode


def look(source: Judged, log: Path, counts: Counts) -> str:
    """Looks at one log; the same log in the format of docs/traces.md."""
    events = events_of(log)
    promised = {event.target for event in events if event.action == "begin"}
    atomic = {name for name in promised if int(name.rpartition("@")[2].split(":")[0]) not in source.refused}
    unguarded = {
        event.target
        for event in events
        if event.action in ("begin", "enter") and int(event.target.rpartition("@")[2].split(":")[0]) in source.unguarded
    }
    told = {event.line for block in blocks_of(events, unguarded) for event in block.events}
    sharing = sharing_of(events, told)
    kinds = kinds_of(events, told, sharing)
    counts.runs += 1
    for block in blocks_of(events, promised):
        if not block.ended:
            continue
        steps = counted(behind_waits(block), source.repeats)
        reducible = is_reducible(steps, kinds, sharing)
        if block.name not in atomic:
            counts.others += 1
            counts.broken[f"{source.path.name}: {block.name}"] += not reducible
            continue
        counts.calls += 1
        counts.steps += len(block.events)
        if not reducible:
            counts.wrong.append(f"{log.name}: {block.name} in line {block.events[0].line} isn't reducible")
        missing = unseen(source.skeleton, steps, sharing, block.name.rpartition("@")[2], source.lent)
        if missing:
            counts.wrong.append(
                f"{log.name}:{missing.line}: {block.name}: the skeleton lacks {missing.action} {missing.target} "
                f"at {missing.place}"
            )
    return as_log(events, log.read_text(encoding="utf-8").splitlines(), atomic, source.repeats)


def trace(source: Judged, folder: Path, archive: Path, runs: int, counts: Counts, logs: Path | None) -> None:
    """Makes the runs of one source, and looks at their logs."""
    target = folder / "logs"
    target.mkdir()
    command = [
        "java",
        *FAST,
        "-cp",
        f"{archive}:{folder}",
        "atomic.trace.Runner",
        source.name,
        "1",
        str(runs),
        str(target),
    ]
    try:
        done = subprocess.run(command, capture_output=True, check=False, timeout=LONGEST + runs)
        if done.returncode:
            counts.wrong.append(f"{source.path.name}: status {done.returncode}: {done.stderr.decode()[:300]}")
    except subprocess.TimeoutExpired:
        counts.wrong.append(f"{source.path.name}: the runs didn't end, so some call waits that isn't logged")
    for log in sorted(target.glob("*.log")):
        text = look(source, log, counts)
        if logs:
            (logs / log.name).write_text(text, encoding="utf-8")


def conclusion(counts: Counts) -> int:
    """Prints what was found; the exit status."""
    for text in counts.wrong[:20]:
        print(text)
    seen = sum(1 for count in counts.broken.values() if count)
    print(
        f"traces: {counts.runs} runs, {counts.calls} calls of methods that are found atomic with {counts.steps} steps, "
        f"{len(counts.wrong)} wrong; "
        f"{counts.others} calls of {len(counts.broken)} refused methods, of which {seen} were seen to be cut"
    )
    return 1 if counts.wrong or not counts.runs else 0


def main() -> None:
    """Traces the sources that are named."""
    parser = argparse.ArgumentParser(description=__doc__, formatter_class=argparse.RawDescriptionHelpFormatter)
    parser.add_argument("sources", nargs="*", type=Path, help="Java sources (default: those of the tests)")
    parser.add_argument("--runs", type=int, default=20, help="how many runs of each source (default: 20)")
    parser.add_argument("--program", type=Path, default=PROGRAM, help="the launcher (default: java/out/atomic-java)")
    parser.add_argument("--logs", type=Path, help="a folder for the logs")
    given = parser.parse_args()
    archive, counts = given.program.resolve().parent / "atomic-java.jar", Counts()
    sources = given.sources or sorted([*(TESTS / "larger").glob("*.java"), *(TESTS / "users").glob("*.java")])
    if given.logs:
        given.logs.mkdir(parents=True, exist_ok=True)
    for path in sources:
        folder = Path(tempfile.mkdtemp())
        source = judge(path, folder, given.program)
        if source and compiled(folder, archive):
            trace(source, folder, archive, given.runs, counts, given.logs)
        else:
            counts.wrong.append(f"{path.name}: not run")
        shutil.rmtree(folder)
    sys.exit(conclusion(counts))


if __name__ == "__main__":
    main()
