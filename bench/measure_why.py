#!/usr/bin/env python3
"""A row of a table for each kind of source that make_checked.py writes, accepted and refused: millions of
instructions (callgrind's; load doesn't change them) of `atomic check`, of `atomic_why` and of `atomic_why --all`, and
how many times `check` the second is. Both programs have to be built with the same flags. The exit status is 0 where
`atomic_why` takes at most 1.5 times what `check` takes, on each."""
from __future__ import annotations

import os
import subprocess
import sys
import tempfile

from command_line import HERE, PROGRAM, WHY, program_of, words_of
from measure import KINDS, millions

MOST = 1.5


def source(kind: str, more: list[str]) -> bytes:
    words = [sys.executable, os.path.join(HERE, "make_checked.py"), kind, *more]
    return subprocess.run(words, capture_output=True, check=True).stdout


def row(programs: tuple[str, str], kind: str, more: list[str], path: str) -> float:
    """The row of a kind, and how many times `check` `atomic_why` takes."""
    with open(path, "wb") as file:
        file.write(source(kind, more))
    atomic, why = programs
    rows = ([atomic, "check", path], [why, path], [why, "--all", path])
    check, explain, listing = (millions(words) or 0.0 for words in rows)
    print(
        f"| {' '.join([kind, *more])} | {check:.1f} | {explain:.1f} | {explain / check:.2f} | {listing:.1f} |",
        flush=True,
    )
    return explain / check


def main() -> None:
    parser = words_of(__doc__)
    parser.add_argument("program", metavar="ATOMIC", type=program_of, help=PROGRAM)
    parser.add_argument("why", metavar="WHY", type=program_of, help=WHY)
    given = parser.parse_args()
    print("| source | `check` | `atomic_why` | ratio | `--all` |\n|---|---|---|---|---|")
    with tempfile.TemporaryDirectory() as folder:
        path = os.path.join(folder, "source.java")
        variants: list[list[str]] = [[], ["refused"]]
        kinds = [kind for kind in KINDS if kind != "full"]
        ratios = [row((given.program, given.why), kind, more, path) for more in variants for kind in kinds]
    sys.exit(1 if max(ratios) > MOST else 0)


if __name__ == "__main__":
    main()
