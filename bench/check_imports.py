#!/usr/bin/env python3
"""Tells the imported names that a file never uses, in these crates or in all.

Looked at are the `use` lines of specs/ and proofs/, and the `ghost use` lines of src/; comments are left out, and
what is imported `pub` counts as used. An operator is used where each of its parts stands. The plain `use` lines of
src/ aren't looked at, as a trait is used by its methods. The exit status is 0 where there is none.
"""
from __future__ import annotations

import os
import re
import sys
from collections.abc import Iterator

from command_line import TOP, words_of

IMPORT = {".antt": re.compile(r"\s*use "), ".rt": re.compile(r"\s*ghost use ")}
OTHER = re.compile(r"\s*(pub(\(crate\))? )?(ghost )?use ")
PUBLIC = re.compile(r"\s*pub (ghost )?use ")
COMMENT = {".antt": re.compile(r'("(?:[^"\\]|\\.)*")|--.*'), ".rt": re.compile(r'("(?:[^"\\]|\\.)*")|//.*')}
LIST = re.compile(r"(.*\.)\{(.*)\}(;?)")


def files(crate: str) -> Iterator[str]:
    for part in ("specs", "proofs", "src"):
        for folder, _, names in os.walk(os.path.join(TOP, "crates", crate, part)):
            yield from (os.path.join(folder, name) for name in sorted(names) if name.endswith((".antt", ".rt")))


def is_used(name: str, body: str) -> bool:
    """Whether a name as it was imported stands in a text."""
    name = name.split(" as ")[-1].strip()
    if "◌" in name:
        return all(part in body for part in name.split("◌") if part.strip())
    return re.search(rf"(?<![\w-]){re.escape(name)}(?![\w'-])", body) is not None


def kept(line: str, body: str) -> tuple[str, list[str]]:
    """What is left of a line of imports, and the names that go."""
    listed = LIST.fullmatch(line.rstrip())
    if not listed:
        name = re.sub(r"^.* as |^.*\.", "", line.rstrip().rstrip(";"))
        return (line, []) if is_used(name, body) else ("", [name])
    names = [name.strip() for name in listed[2].split(",") if name.strip()]
    unused = [name for name in names if not is_used(name, body)]
    used = [name for name in names if name not in unused]
    return (f"{listed[1]}{{{', '.join(used)}}}{listed[3]}" if used else "", unused)


def look(file: str, writes: bool) -> list[str]:
    """The names that a file imports and doesn't use. They are taken away where that is asked for."""
    kind = os.path.splitext(file)[1]
    with open(file, encoding="utf-8") as opened:
        lines = opened.read().split("\n")
    body = "\n".join(COMMENT[kind].sub(r"\1", line) for line in lines if not OTHER.match(line) or PUBLIC.match(line))
    unused: list[str] = []
    left: list[str] = []
    for line in lines:
        is_import = IMPORT[kind].match(line) is not None
        rest, gone = kept(line, body) if is_import else (line, [])
        unused += gone
        if rest or not is_import:
            left.append(rest if gone else line)
    if unused and writes:
        with open(file, "w", encoding="utf-8") as opened:
            opened.write("\n".join(left))
    return unused


def main() -> None:
    parser = words_of(__doc__)
    parser.add_argument("--write", action="store_true", help="take the names away")
    parser.add_argument("crates", metavar="CRATE", nargs="*")
    given = parser.parse_args()
    writes, crates = given.write, given.crates or sorted(os.listdir(os.path.join(TOP, "crates")))
    for crate in crates:
        if not os.path.isdir(os.path.join(TOP, "crates", crate)):
            parser.error(f"there is no crate {crate}")
    count = 0
    for crate in crates:
        for file in files(crate):
            unused = look(file, writes)
            count += len(unused)
            if unused:
                print(f"{os.path.relpath(file, TOP)}: {', '.join(unused)}")
    print(f"{count} imported names that nothing uses{', taken away' if count and writes else ''}")
    sys.exit(1 if count and not writes else 0)


if __name__ == "__main__":
    main()
