#!/usr/bin/env python3
"""Writes the test file that holds each example of the README's first table against the lines that it states.

    python3 as_test.py > ../crates/atomic_cli/src/examples.rt
    python3 as_test.py --check ../crates/atomic_cli/src/examples.rt
"""
from __future__ import annotations

import argparse
import os
import re
import sys
from collections.abc import Iterator

HERE = os.path.dirname(os.path.abspath(__file__))
# a name, a text, a status and lines
Row = tuple[str, str, str, str]

ROW = re.compile(r"\| `(\w+\.java)` \| (.*) \| (\d+) \|")


def read(name: str) -> str:
    with open(os.path.join(HERE, name), encoding="utf-8") as file:
        return file.read()


def literal(text: str) -> str:
    text = text.replace("\\", "\\\\").replace('"', '\\"').replace("\n", "\\n")
    return f'"{text}"'


def rows() -> Iterator[Row]:
    first, _, _ = read("README.md").partition("\n## ")
    for name, cell, status in ROW.findall(first):
        lines = "".join(line + "\n" for line in re.findall(r"`([^`]*)`", cell))
        yield name, read(name), status, lines


def table(what: str, name: str, found: list[Row]) -> list[str]:
    """A table of rows, each with name, text, status and lines."""
    type_ = f"[(&str, &str, u8, &str); {len(found)}]"
    out = ["", f"/// {what}: name, text, status and lines.", f"pub const {name}: {type_} = ["]
    for file, text, status, lines in found:
        inside = [f'"{file}"', literal(text), status, literal(lines)]
        out += ["    (", *(f"        {part}," for part in inside), "    ),"]
    return out + ["];"]


def test_file() -> str:
    """Two tables, since one of all examples is more than the check of a test that names it takes in."""
    found = list(rows())
    out = ["//! The files of `examples/`, with the lines that its README states. Written by `examples/as_test.py`."]
    out += table("Those that are accepted", "ACCEPTED", [row for row in found if row[2] == "0"])
    out += table("Those that are refused", "REFUSED", [row for row in found if row[2] != "0"])
    return "\n".join(out + [""])


def main() -> None:
    form = argparse.RawDescriptionHelpFormatter
    parser = argparse.ArgumentParser(description=__doc__, formatter_class=form)
    text = "write nothing; the exit status is 1 where this file isn't the one of today's examples"
    parser.add_argument("--check", metavar="FILE", help=text)
    given = parser.parse_args()
    if given.check is None:
        sys.stdout.write(test_file())
        return
    with open(given.check, encoding="utf-8") as file:
        sys.exit(0 if file.read() == test_file() else 1)


if __name__ == "__main__":
    main()
