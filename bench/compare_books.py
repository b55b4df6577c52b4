#!/usr/bin/env python3
"""Damages the derived books of the accepted examples, and holds what `verify` says of
each text as a text against the plain program's reader (`read-book`). The exit status is 0 where they agree on all.
"""
from __future__ import annotations

import os
import random
import subprocess
import sys
import tempfile

from command_line import PROGRAM, TOP, count_of, program_of, words_of

EXAMPLES = os.path.join(TOP, "examples")
PIECES = [
    "(",
    ")",
    " ",
    "\n",
    "0",
    "9",
    "64",
    "mover",
    "const",
    "(0 mover atomic)",
    "(1.2 ",
    "end",
    "method ",
    "skip 0",
]
PIECES += ["65536 ", "4294967296"]


def damaged(book: str, chooser: random.Random) -> str:
    at = chooser.randrange(len(book))
    choice = chooser.randrange(4)
    if choice == 0:
        return book[:at] + book[at + 1 :]
    if choice == 1:
        return book[:at] + chooser.choice(PIECES) + book[at:]
    if choice == 2:
        return book[:at] + chooser.choice(PIECES) + book[at + 1 :]
    other = chooser.randrange(len(book))
    return book[:at] + book[other : other + chooser.randrange(20)] + book[at:]


def said(*words: str) -> str:
    return subprocess.run(words, capture_output=True, check=False).stdout.decode()


def main() -> None:
    parser = words_of(__doc__)
    parser.add_argument("program", metavar="PROGRAM", type=program_of, help=PROGRAM)
    parser.add_argument("plain", metavar="PLAIN", type=program_of, help="the plain program of this folder")
    parser.add_argument("count", metavar="COUNT", type=count_of, nargs="?", default=200, help="so many of each (200)")
    given = parser.parse_args()
    program, plain, count = given.program, given.plain, given.count
    wrong = tried = 0
    with tempfile.TemporaryDirectory() as folder:
        path = os.path.join(folder, "book")
        for name in sorted(os.listdir(EXAMPLES)):
            source = os.path.join(EXAMPLES, name)
            book = said(program, "derive", source) if name.endswith(".java") else ""
            if not book.startswith("book "):
                continue
            for k in range(count):
                text = damaged(book, random.Random(f"{name} {k}"))
                with open(path, "w", encoding="utf-8") as file:
                    file.write(text)
                ours, theirs = said(program, "verify", source, path), said(plain, "read-book", path)
                tried += 1
                if (" at byte " in ours or " at byte " in theirs) and ours != theirs:
                    wrong += 1
                    print(f"{name} {k}: {ours!r} {theirs!r} of\n{text}")
    print(f"{tried} texts, {wrong} differences")
    sys.exit(1 if wrong else 0)


if __name__ == "__main__":
    main()
