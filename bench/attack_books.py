#!/usr/bin/env python3
"""Gives `verify` the books of a stranger who wants it to stall, and tells what each costs.

Each book is tried against a plain source. A line tells the name, the status, the seconds, the peak memory and the
answer. The exit status is 0 where each answer came within 20 seconds and 256 MB, with a status of the table in
docs/formats.md.
"""
from __future__ import annotations

import os
import random
import subprocess
import sys
import tempfile
import time
from collections.abc import Callable, Mapping
from dataclasses import dataclass

from command_line import PROGRAM, Words, program_of, words_of

# a source and a text for it
Attack = tuple[str, str]

BASICS = ["const", "mover", "atomic", "cmpd", "error"]


def ladder(paths: list[str]) -> str:
    """A mover where all these paths are held, else atomic."""
    return "".join(f"({path} " for path in paths) + "mover" + " atomic)" * len(paths)


def bush(first: int, height: int, chooser: random.Random) -> str:
    """A full tree that tests a path at each level, with any leaves."""
    if height == 0:
        return chooser.choice(["mover", "atomic", "cmpd"])
    while True:
        held, free = bush(first + 1, height - 1, chooser), bush(first + 1, height - 1, chooser)
        if held != free:
            return f"({first} {held} {free})"


def book(trees: list[str], nodes: str) -> str:
    return "\n".join([f"book {len(trees)}", *trees, "method 0 0", nodes, "end"]) + "\n"


def statements(count: int) -> str:
    """A method with so many statements, after a declaration."""
    return "class Main { void main() { int x = 0; " + "x=1;" * (count - 1) + "} }"


def blocks(count: int, size: int) -> str:
    """A method with blocks of so many statements each, after a declaration."""
    return "class Main { void main() { int x = 0; " + ("{" + "x=1;" * size + "}") * count + "} }"


def own_paths(count: int, tests: int, claim: str) -> Attack:
    """A block of statements each of which concludes a tree on paths of its own, and what the block then claims."""
    trees = ["cmpd", claim, "const"] + [ladder([f"{k}.{n}" for n in range(tests)]) for k in range(count)]
    nodes = "".join(f" ({'local' if k == 0 else 'set'} {k + 3} (lit 2))" for k in range(count))
    return statements(count), book(trees, f"(block 1{nodes})")


def one_tree(count: int, height: int) -> Attack:
    """So many nodes that all name one full tree."""
    trees = ["cmpd", "const", bush(0, height, random.Random(1))]
    nodes = "".join(f" ({'local' if k == 0 else 'set'} 2 (lit 1))" for k in range(count // 2))
    return statements(count // 2), book(trees, f"(block 0{nodes})")


def many_blocks(count: int, size: int, tests: int) -> Attack:
    """Blocks of statements each of which concludes a tree on paths of its own."""
    trees = ["cmpd", "const"] + [ladder([f"{k}.{n}" for n in range(tests)]) for k in range(size)]
    inner = "(block 0" + "".join(f" (set {k + 2} (lit 1))" for k in range(size)) + ")"
    return blocks(count, size), book(trees, f"(block 0 (local 0 (lit 1)){(' ' + inner) * count})")


def many_pairs(count: int, height: int) -> Attack:
    """Statements of which each concludes one of many full trees, each on paths of its own."""
    trees = ["cmpd", "const"] + [bush(20 * k, height, random.Random(k)) for k in range(count)]
    size = 20000
    nodes = "".join(f" ({'local' if k == 0 else 'set'} {2 + k * 7919 % count} (lit 1))" for k in range(size))
    return statements(size), book(trees, f"(block 0{nodes})")


BRACKETS = 1000000

BOOKS: dict[str, Callable[[], Attack]] = {
    "30 statements, trees of 2 tests": lambda: own_paths(30, 2, "cmpd"),
    "30 statements, trees of 2 tests, atomic": lambda: own_paths(30, 2, "atomic"),
    "30 statements, trees of 64 tests": lambda: own_paths(30, 64, "cmpd"),
    "3,000 statements, trees of 2 tests": lambda: own_paths(3000, 2, "cmpd"),
    "3,000 statements, trees of 2 tests, atomic": lambda: own_paths(3000, 2, "atomic"),
    "3,000 statements, trees of 64 tests": lambda: own_paths(3000, 64, "cmpd"),
    "100,000 nodes, one tree of 524,287 tests": lambda: one_tree(100000, 19),
    "100,000 nodes, one tree of 65,535 tests": lambda: one_tree(100000, 16),
    "100,000 nodes, one tree of 1,023 tests": lambda: one_tree(100000, 10),
    "100,000 nodes, a leaf": lambda: one_tree(100000, 0),
    "1,500 blocks of 30 statements, trees of 64 tests": lambda: many_blocks(1500, 30, 64),
    "20,000 statements, 300 trees of 1,023 tests": lambda: many_pairs(300, 10),
    "1,000,000 open brackets": lambda: (statements(1), "book 1\nconst\nmethod 0 0\n" + "(" * BRACKETS),
    "1,000,000 open nodes": lambda: (statements(1), "book 1\nconst\nmethod 0 0\n" + "(block 0 " * BRACKETS),
    "1,000,000 open tests": lambda: (statements(1), "book 1\n" + "".join(f"({k} " for k in range(BRACKETS))),
    "a table of 500,000 trees": lambda: (
        statements(1),
        book(["cmpd"] + ["(0 mover atomic)"] * 499999, "(block 0 (local 0 (lit 0)))"),
    ),
}


# a process of its own, so that the peak is this program's
TIMED = """
import resource, subprocess, sys
done = subprocess.run(sys.argv[1:], stdout=subprocess.PIPE)
peak = resource.getrusage(resource.RUSAGE_CHILDREN).ru_maxrss
print(done.returncode, peak, done.stdout.decode().strip(), sep="\\t")
"""


def measured(words: list[str], folder: str) -> tuple[int, float, float, str]:
    """Status, seconds, peak memory in megabytes, and the text."""
    began = time.time()
    done = subprocess.run(
        [sys.executable, "-c", TIMED, *words], cwd=folder, capture_output=True, timeout=900, check=False
    )
    status, peak, text = done.stdout.decode().rstrip("\n").split("\t")
    return int(status), time.time() - began, int(peak) / 1024, text


@dataclass(frozen=True)
class Target:
    """A command that is attacked: its word, what it reads beside a source, the statuses that are right, and the
    megabytes that a text of so many bytes may take."""

    word: str
    evidence: str
    statuses: tuple[int, ...]
    megabytes: Callable[[int], float]

    def answer(self, program: str, attack: Attack, folder: str) -> tuple[bool, str]:
        """Whether status, seconds and memory are as they should be, and what is told of them."""
        source, text = attack
        for file, data in (("source", source), (self.evidence, text)):
            with open(os.path.join(folder, file), "w", encoding="ascii") as out:
                out.write(data)
        status, seconds, peak, said = measured([program, self.word, "source", self.evidence], folder)
        good = status in self.statuses and seconds <= 20 and peak <= self.megabytes(len(text))
        sizes = f"source of {len(source):,}, {self.evidence} of {len(text):,} bytes"
        return good, f"{sizes}, status {status}, {seconds:.2f} s, {peak:.0f} MB, {said or '-'}"


def run_attacks(target: Target, attacks: Mapping[str, Callable[[], Attack]], parser: Words) -> int:
    """Tries the attacks that the command line names, and gives the exit status."""
    parser.add_argument("program", metavar="PROGRAM", type=program_of, help=PROGRAM)
    parser.add_argument("names", metavar="NAME", nargs="*", help="those whose name has this text; else all")
    given = parser.parse_args()
    all_good = True
    with tempfile.TemporaryDirectory() as folder:
        for name, make in attacks.items():
            if not given.names or any(part in name for part in given.names):
                good, told = target.answer(given.program, make(), folder)
                all_good = all_good and good
                print(f"{name}: {told}", flush=True)
    return 0 if all_good else 1


if __name__ == "__main__":
    sys.exit(run_attacks(Target("verify", "book", (0, 8, 11), lambda length: 256), BOOKS, words_of(__doc__)))
