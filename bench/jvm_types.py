"""What `check` and javac say of random sources near the border of types (`jvm.py types`).

Each source is a program of the grammar with a slip or so: a name that nothing declares, a wrong type, an assigned
final. Both have to take it, or both to refuse it, but for the departures of docs/java-differences.md.
"""
import collections
import random
import re
import subprocess
from dataclasses import dataclass

from jvm_compare import Program
from jvm_java import Rewriter, java_of
from jvm_reading import Class, Unread
from jvm_server import Server
from random_source import Generator

# What the language asks for and Java doesn't.
STRICTER = {"not a lock", "too many", "too many locals", "too many locks", "no main", "bad constructor", "bad override"}
STRICTER |= {"declared twice", "missing return"}
# What javac refuses and the language doesn't.
LOOSER = ("unreachable statement",)


@dataclass
class Judged:
    """A source, and what `check` says of it: the kind of its fault and the fault's place, or nothing."""

    data: bytes
    kind: str
    offset: int


def near_border(seed: str) -> bytes:
    chooser = random.Random(seed)
    slips = chooser.choice([0.0, 0.003, 0.006, 0.02])
    return Generator(seed, slips, False, ("guarded_by", "write_guarded_by"), True).source().encode()


def judged(program: Program, data: bytes) -> Judged:
    with open(program.file, "wb") as file:
        file.write(data)
    done = subprocess.run([program.path, "check", program.file], stdout=subprocess.PIPE, close_fds=False, check=False)
    line = done.stdout.decode().split("\n")[0]
    found = re.fullmatch(r"refused at (\d+):(\d+): (.*)", line)
    if not found:
        return Judged(data, "", 0)
    starts = [0] + [end.end() for end in re.finditer(b"\n", data)]
    return Judged(data, found[3], starts[int(found[1]) - 1] + int(found[2]) - 1)


def read(data: bytes) -> tuple[Rewriter, list[Class]]:
    reader = Rewriter(data.decode(), "", False)
    classes = reader.program()
    reader.hand_up(classes)
    return reader, classes


def in_clause(case: Judged) -> bool:
    """Whether the fault stands in words that Java lacks."""
    return any(begin <= case.offset < end for begin, end, _ in read(case.data)[0].edits.found)


def has_circle(data: bytes) -> bool:
    """Whether a class is its own ancestor; beside such a text javac misjudges others."""
    return any(cls.line()[-1].above is not None for cls in read(data)[1])


def verdict(case: Judged, error: str) -> str:
    """In what way both say the same, or differ as it is known; else nothing."""
    if bool(case.kind) == bool(error):
        return "both refuse" if error else "both take"
    if error:
        return "javac alone refuses: " + error.partition(": ")[2] if error.endswith(LOOSER) else ""
    return f"check alone refuses: {case.kind}" if case.kind in STRICTER or in_clause(case) else ""


def compare_types(program: Program, server: Server, seeds: list[str]) -> tuple["collections.Counter[str]", list[str]]:
    """How often each verdict comes, and a text for each difference."""
    cases = {}
    for number, seed in enumerate(seeds):
        data = near_border(seed)
        try:
            cases[f"t{number}/Program.java"] = java_of(data, f"package t{number}; "), judged(program, data)
        except Unread:
            continue
    errors = {}
    for is_circle in (False, True):
        group = {name: text for name, (text, case) in cases.items() if has_circle(case.data) == is_circle}
        errors.update(server.compile(group, is_run=False))
    counts: collections.Counter[str] = collections.Counter()
    wrong = []
    for name, (_, case) in cases.items():
        said = verdict(case, errors[name])
        counts[said or "differences"] += 1
        if not said:
            wrong.append(f"check: {case.kind or 'taken'}; javac: {errors[name] or 'taken'}\n{case.data.decode()}")
    return counts, wrong
