#!/usr/bin/env python3
"""Judges classes of the JDK by atomic-java and writes the table of docs/jdk.md; jdk.sh calls it.

Each class is judged together with the classes above it that hold its state, and nothing else of the JDK. Its methods
are counted without constructors: those whose skeleton is exact, that rest on an assumption, and that are approximated;
of the public ones those that are found atomic, those that are refused for certain, and those that are perhaps wrong
alarms. Behind the table stand the reasons of the certain refusals and of the approximations, and how often each came.
With --sample, so many of the certain refusals are drawn, to be read by hand.
"""
import argparse
import random
import re
import subprocess
import sys
import time
import zipfile
from collections import Counter
from dataclasses import dataclass
from pathlib import Path

CLASSES: dict[str, list[str]] = {
    "java/lang/StringBuffer": ["java/lang/AbstractStringBuilder"],
    "java/util/Vector": [],
    "java/util/Stack": ["java/util/Vector"],
    "java/util/Hashtable": [],
    "java/util/Timer": ["java/util/TimerTask"],
    "java/util/Observable": [],
    "java/util/Random": [],
    "java/util/Collections": [],
    "java/util/zip/Inflater": [],
    "java/util/zip/Deflater": [],
    "java/io/PrintWriter": [],
    "java/io/BufferedWriter": [],
    "java/io/BufferedReader": [],
    "java/io/LineNumberReader": ["java/io/BufferedReader"],
    "java/io/ByteArrayOutputStream": [],
    "java/io/ByteArrayInputStream": [],
    "java/io/BufferedInputStream": ["java/io/FilterInputStream"],
    "java/io/BufferedOutputStream": ["java/io/FilterOutputStream"],
    "java/io/PipedInputStream": [],
    "java/io/PipedReader": [],
    "java/io/CharArrayWriter": [],
    "java/io/CharArrayReader": [],
    "java/io/StringReader": [],
    "java/io/StringWriter": [],
    "java/io/PrintStream": ["java/io/FilterOutputStream"],
    "java/net/URL": [],
    "java/net/InMemoryCookieStore": [],
    "java/net/DatagramPacket": [],
    "java/util/concurrent/ArrayBlockingQueue": [],
    "java/util/concurrent/LinkedBlockingQueue": [],
    "java/util/concurrent/LinkedBlockingDeque": [],
    "java/util/concurrent/PriorityBlockingQueue": [],
    "java/util/concurrent/DelayQueue": [],
    "java/util/concurrent/CyclicBarrier": [],
    "java/util/concurrent/CopyOnWriteArrayList": [],
}
SEED = 52
SUMMARY = re.compile(r"(\d+) methods: (\d+) exact, (\d+) assumed, (\d+) approximated; (\d+) promise to be atomic:")
REFUSED = re.compile(r"^(.*): error: .* is declared atomic, found \w+$", re.MULTILINE)
PERHAPS = re.compile(r"^(.*): note: this may be a wrong alarm", re.MULTILINE)
STEP = re.compile(r"^(.*): note: (?:compound step|atomic step|a second one): (.*)$", re.MULTILINE)
TOLD = re.compile(r"^(.*): note: approximated: (.*)$", re.MULTILINE)
NOTE = re.compile(r": note: approximated: ([^:,\n]*)")


@dataclass(frozen=True)
class Row:
    """What is counted of one class."""

    name: str
    lines: int
    figures: tuple[int, ...]
    seconds: float
    reasons: Counter[str]
    certain: dict[str, str]
    answer: str

    def text(self) -> str:
        """The row of the table."""
        methods, exact, assumed, approximated, promised, atomic, refused, perhaps = self.figures
        return (
            f"| `{self.name.replace('/', '.')}` | {self.lines} | {methods} | {exact} | {assumed} | {approximated} "
            f"| {promised} | {atomic} | {refused} | {perhaps} | {self.seconds:.1f} |"
        )


def reason(block: str, told: dict[str, str]) -> str:
    """Why a method is refused, by the two steps of its explanation; `told` has the approximations by their places."""
    steps = STEP.findall(block)
    known = " ".join(told.get(place, "") for place, _ in steps)
    texts = [text for _, text in steps]
    if any("which nothing guards" in text or "guarded for writing only" in text for text in texts):
        return "a field that is touched without its lock, or that has none"
    if "overrides it, and is" in block:
        return "a method in its place below that is refused"
    if "function that isn't known" in known or any("a function that isn't known" in text for text in texts):
        return "a function that the caller gives"
    if known.startswith("wait"):
        return "a wait in the middle"
    if known:
        return "an object of others, while no lock is held"
    if any("which is cmpd" in text for text in texts):
        return "a call of a method that is refused itself"
    return "two regions, or two calls that take a lock or are a step"


def certain_of(answer: str) -> dict[str, str]:
    """The refusals that are certain, and why: by their places and names."""
    perhaps, told = set(PERHAPS.findall(answer)), dict(TOLD.findall(answer))
    blocks = re.split(r"(?m)^(?=.*: error: )", answer)[1:]
    heads = [(REFUSED.match(block), block) for block in blocks]
    certain = [(found[0], block) for found, block in heads if found and found[1] not in perhaps]
    return {head.replace(": error", ""): reason(block, told) for head, block in certain}


def judged(name: str, archive: zipfile.ZipFile, folder: Path, program: Path) -> Row | str:
    """The row of a class, or why there is none."""
    sources = []
    for each in [name, *CLASSES.get(name, [])]:
        path = folder / (each + ".java")
        path.parent.mkdir(parents=True, exist_ok=True)
        path.write_bytes(archive.read(f"java.base/{each}.java"))
        sources.append(str(path))
    begun = time.monotonic()
    words = [str(program), "--public", "--infer", "--patch-module", f"java.base={folder}", *sources]
    done = subprocess.run(words, capture_output=True, check=False)
    seconds, answer = time.monotonic() - begun, done.stdout.decode()
    found = SUMMARY.search(done.stderr.decode())
    if not found:
        return f"{name}: status {done.returncode}: {(answer + done.stderr.decode())[:300]}"
    reasons = Counter(reason.split(" (")[0] for reason in NOTE.findall(answer))
    lines = sum(Path(source).read_text(encoding="utf-8").count("\n") for source in sources)
    refused, certain = set(REFUSED.findall(answer)), certain_of(answer)
    sure = len({place.split(": ")[0] for place in certain})
    figures = [int(number) for number in found.groups()]
    figures += [int(found[5]) - len(refused), sure, len(refused) - sure]
    return Row(name, lines, tuple(figures), seconds, reasons, certain, answer)


def told(rows: list[Row]) -> None:
    """Prints the table and what stands behind it."""
    print(
        "| class | lines | methods | exact | assumed | approximated | public | found atomic "
        "| refused for certain | perhaps | seconds |"
    )
    print("|---|---|---|---|---|---|---|---|---|---|---|")
    for row in rows:
        print(row.text())
    sums = tuple(sum(row.figures[place] for row in rows) for place in range(len(rows[0].figures)))
    reasons = sum((row.reasons for row in rows), Counter[str]())
    lines, seconds = sum(row.lines for row in rows), sum(row.seconds for row in rows)
    whole = Row(f"{len(rows)} classes", lines, sums, seconds, reasons, {}, "")
    print(whole.text().replace("`", ""))
    print("\n| why a method is refused for certain | methods |\n|---|---|")
    for why, count in Counter(why for row in rows for why in row.certain.values()).most_common():
        print(f"| {why} | {count} |")
    print("\n| why something is approximated | places |\n|---|---|")
    for why, count in reasons.most_common():
        print(f"| {why} | {count} |")


def sample(rows: list[Row], count: int) -> None:
    """Prints certain refusals that are drawn at random, always the same ones."""
    every = sorted((re.sub(r"^.*?/java_\w+/", "", head), why) for row in rows for head, why in row.certain.items())
    for head, why in sorted(random.Random(SEED).sample(every, min(count, len(every)))):
        print(f"{head}: {why}")


def main() -> None:
    """Judges the classes that are named, or all of the table."""
    parser = argparse.ArgumentParser(description=__doc__, formatter_class=argparse.RawDescriptionHelpFormatter)
    parser.add_argument("classes", nargs="*", help="such as java/util/Vector")
    parser.add_argument("--sources", type=Path, required=True, help="the JDK's src.zip")
    parser.add_argument("--folder", type=Path, required=True, help="a folder for what is judged")
    parser.add_argument("--program", type=Path, required=True, help="the launcher")
    parser.add_argument("--sample", type=int, default=0, help="how many of the certain refusals are drawn")
    parser.add_argument("--answers", type=Path, help="a folder that keeps what is told of each class")
    given = parser.parse_args()
    rows = []
    with zipfile.ZipFile(given.sources) as archive:
        for name in given.classes or CLASSES:
            row = judged(name, archive, given.folder / name.replace("/", "_"), given.program)
            if isinstance(row, str):
                print(row, file=sys.stderr)
                continue
            rows.append(row)
            if given.answers:
                given.answers.mkdir(parents=True, exist_ok=True)
                (given.answers / (name.replace("/", ".") + ".txt")).write_text(row.answer, encoding="utf-8")
    if rows:
        told(rows)
        sample(rows, given.sample)
    sys.exit(0 if len(rows) == len(given.classes or CLASSES) else 1)


if __name__ == "__main__":
    main()
