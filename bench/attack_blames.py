#!/usr/bin/env python3
"""Gives `verify-blame` the certificates of a stranger who wants it to stall, and tells what each costs.

A line tells the name, the status, the seconds, the peak memory and the answer. The exit status is 0 where each answer
came within 20 seconds, in ten times the bytes of the certificate and 64 MB, with a status of the table in
docs/formats.md.
"""
from __future__ import annotations

import sys
from collections.abc import Callable
from typing import Optional

from attack_books import BASICS, Attack, Target, run_attacks
from command_line import words_of

MAIN = "class Main { void main() { } }\n"
LIMIT = 16777216


def certificate(lines: list[str], count: Optional[int] = None) -> str:
    return f"blame {len(lines) if count is None else count}\n" + "".join(line + "\n" for line in lines) + "end\n"


def repeated(line: str, limit: int = LIMIT) -> str:
    """The line as often as the limit allows."""
    count = (limit - len("blame 9999999\nend\n")) // (len(line) + 1)
    return f"blame {count}\n" + (line + "\n") * count + "end\n"


def one_method(statements: int) -> str:
    """A method with so many statements, which is the class's first, and a field that nothing guards."""
    return MAIN + "class C { int u; void f() { " + "this.u = 1;" * statements + " } }\n"


def eight_locks(statements: int) -> str:
    """A method of eight relevant paths with so many statements, and one that calls it by all of them."""
    params = ", ".join(f"final D {p}" for p in "abcdefgh")
    body = "".join(f"{'abcdefgh'[k % 8]}.v = {k % 10};" for k in range(statements))
    return MAIN + "class D { int v guarded_by this; }\nclass C { void f(" + params + ") { " + body + " } }\n"


def eight_calls(calls: int) -> str:
    """A method that calls one of eight relevant paths so many times."""
    params = ", ".join(f"final D {p}" for p in "abcdefgh")
    args = ",".join("abcdefgh")
    use = "".join(f"{p}.v = 1;" for p in "abcdefgh")
    body = f"this.g({args});" * calls
    called = f"class C {{ void g({params}) {{ {use} }} void f({params}) {{ {body} }} }}\n"
    return MAIN + "class D { int v guarded_by this; }\n" + called


def parts(method: int, paths: list[str], basics: list[str]) -> list[str]:
    """A line for each part of these paths, the greatest parts first, with each of these basics."""
    lines = []
    for bits in sorted(range(1 << len(paths)), key=lambda b: -bin(b).count("1")):
        held = " ".join(p for k, p in enumerate(paths) if bits >> k & 1)
        for basic in basics:
            lines.append(f"{method} {basic} {held}".rstrip())
    return lines


def many_paths() -> str:
    return "".join(f" {k}.{n}" for k in range(1, 60000) for n in range(44))[: LIMIT - 30].rsplit(" ", 1)[0]


PATHS = [str(k) for k in range(1, 9)]

CERTIFICATES: dict[str, Callable[[], Attack]] = {
    # Each line is said already but the first.
    "100,000 lines on one method": lambda: (one_method(20000), certificate(["1 cmpd"] * 100000)),
    # None of the lines but const follows before the one that doesn't; each is looked at.
    "1,024 lines that each name the largest method": lambda: (eight_locks(30000), certificate(parts(1, PATHS, BASICS))),
    "1,024 lines that each look at 9,000 calls": lambda: (
        eight_calls(9000),
        certificate(parts(1, PATHS, ["mover", "cmpd", "error"]) + parts(2, PATHS, ["mover", "cmpd", "error"])),
    ),
    "2,000,000 equal lines": lambda: (one_method(20000), repeated("1 const")),
    "1,800,000 equal lines that follow": lambda: (one_method(20000), repeated("1 cmpd")),
    "lines with eight paths each": lambda: (eight_locks(20000), repeated("1 mover 1 2 3 4 5 6 7 8")),
    "lines with ten paths each, none of them relevant": lambda: (
        one_method(10),
        repeated("1 mover 0 1 2 3 4 5 6 7 8 9"),
    ),
    "one line of 2,700,000 paths": lambda: (one_method(10), "blame 1\n1 mover" + many_paths() + "\nend\n"),
    "a number out of range at the end": lambda: (
        one_method(20000),
        repeated("1 const", LIMIT - 40)[:-4] + "4294967296 const\nend\n",
    ),
    "a count that the lines don't have": lambda: (
        one_method(10),
        "blame 4294967295\n" + "1 const\n" * 2000000 + "end\n",
    ),
    "no end": lambda: (one_method(10), "blame 2000000\n" + "1 const\n" * 2000000),
}


if __name__ == "__main__":
    target = Target("verify-blame", "certificate", (0, 8, 13), lambda length: 64 + 10 * length / 1048576)
    sys.exit(run_attacks(target, CERTIFICATES, words_of(__doc__)))
