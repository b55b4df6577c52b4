#!/usr/bin/env python3
"""Compares crates.txt, the crates' files and the tables of docs/architecture.md.

Told are: a crate without a folder, a row or a heading, or at another place than in the tables; a crate that uses one
that stands below it; a use in crates.txt that no file of the crate cites (src/, specs/ and proofs/, comments left
out), and a crate that is cited there and isn't in crates.txt; a row whose uses aren't those of crates.txt; a name in
README.md or docs/ that is no crate's, and a file of a crate that is named there and isn't there. The exit status is 0
where there is none. The last line has the longest chain of crates.

--write makes the tables and crates.txt agree first. The tables say in which order and under which heading crates
stand, what each does and what is used of it; crates.txt says what each uses. A row whose crate crates.txt doesn't
list is dropped. A crate without a row gets one behind the last that it uses, with the first sentence of its root
file. The lines of crates.txt come in the order of the tables, each as it was.
"""
from __future__ import annotations

import os
import re
import sys
from collections.abc import Iterator
from typing import Optional, Union

from command_line import TOP, words_of

# of each crate: its heading, its line, and what it uses
Crates = dict[str, tuple[Optional[str], str, list[str]]]
HEAD = "| crate | does | uses | what is used of it |\n|---|---|---|---|\n"


def path(*names: str) -> str:
    return os.path.join(TOP, *names)


def read(*names: str) -> str:
    with open(path(*names), encoding="utf-8") as file:
        return file.read()


def write(text: str, *names: str) -> None:
    if text != read(*names):
        with open(path(*names), "w", encoding="utf-8") as file:
            file.write(text)
        print(f"{os.path.join(*names)} is written anew")


def listed() -> Crates:
    """The lines of crates.txt: each crate's heading, its line, and what it uses, the kit's libraries too."""
    found: Crates = {}
    heading: Optional[str] = None
    for line in read("crates.txt").splitlines():
        head, colon, uses = line.partition(":")
        if line.startswith("# ") and not colon:
            heading = line[2:]
        elif colon and not line.startswith("#"):
            found[head.split()[0]] = heading, line, uses.split()
    return found


class Table:
    """A table of docs/architecture.md: its heading, the lines under that, and its rows, each the name and three
    cells."""

    def __init__(self, heading: str, said: str, rows: str) -> None:
        self.heading, self.said = heading, said
        self.rows = [[cell.strip() for cell in row.strip("|").split("|")] for row in rows.splitlines()]
        for row in self.rows:
            row[0] = row[0].strip("`")

    def __str__(self) -> str:
        rows = (f"| `{name}` | {' | '.join(cells)} |\n".replace("|  |", "| |") for name, *cells in self.rows)
        return f"## {self.heading}\n{self.said}{HEAD}{''.join(rows)}"


# texts of the document, and the tables between them
Parts = list[Union[str, Table]]


def tables(text: str) -> Parts:
    """The tables, with the text between them: a list that begins and ends with a text."""
    pattern = r"^## (\w+)\n((?:(?!#).*\n)*?)" + re.escape(HEAD) + r"((?:\|.*\n)+)"
    parts: Parts = []
    at = 0
    for found in re.finditer(pattern, text, re.M):
        parts += [text[at : found.start()], Table(*found.groups())]
        at = found.end()
    return parts + [text[at:]]


def uses_cell(name: str, crates: Crates, order: dict[str, int]) -> str:
    """The crates of the repository that a crate uses, in the order of the tables."""
    uses = [use for use in crates[name][2] if use in crates]
    return ", ".join(sorted(uses, key=lambda use: order.get(use, 0)))


def files(name: str) -> Iterator[str]:
    for part in ("src", "specs", "proofs"):
        for folder, _, names in os.walk(path("crates", name, part)):
            yield from (os.path.join(folder, file) for file in sorted(names) if file.endswith((".rt", ".antt")))


def root(name: str) -> str:
    """What the root file of a crate says of it, up to the first full stop."""
    for file in ("lib.rt", "main.rt"):
        if os.path.exists(path("crates", name, "src", file)):
            said = " ".join(re.findall(r"^//! ?(.*)$", read("crates", name, "src", file), re.M))
            first = re.split(r"\.(?: |$)", said)[0]
            return first[:1].lower() + first[1:]
    return ""


def code_of(name: str) -> str:
    """The text of a crate's files, comments left out."""
    texts: list[str] = []
    for file in files(name):
        with open(file, encoding="utf-8") as text:
            texts.append(re.sub(r"--.*" if file.endswith(".antt") else r"//.*", "", text.read()))
    return "\n".join(texts)


def places(parts: Parts) -> tuple[dict[str, int], dict[str, Table]]:
    """The place of each crate, counted through all tables, and the table that it stands in."""
    all_rows = [(name, table) for table in parts if isinstance(table, Table) for name, *_ in table.rows]
    return {name: k for k, (name, _) in enumerate(all_rows)}, dict(all_rows)


def agree(parts: Parts, crates: Crates) -> None:
    """Drops and adds rows, and writes what each crate uses."""
    for table in parts:
        if isinstance(table, Table):
            for name, *_ in [row for row in table.rows if row[0] not in crates]:
                print(f"{name}: its row is dropped")
            table.rows = [row for row in table.rows if row[0] in crates]
    left = [name for name in crates if name not in places(parts)[0]]
    while left:
        order, table_of = places(parts)
        ready = [name for name in left if not any(use in left for use in crates[name][2])] or left
        name = ready[0]
        below = [use for use in crates[name][2] if use in order]
        last = max(below, key=order.__getitem__) if below else next(iter(order))
        rows = table_of[last].rows
        rows.insert([row[0] for row in rows].index(last) + 1, [name, root(name), "", ""])
        print(f"{name}: a row is added under {table_of[last].heading!r}: say what is used of it")
        left.remove(name)
    order, _ = places(parts)
    for table in parts:
        for row in table.rows if isinstance(table, Table) else []:
            row[2] = uses_cell(row[0], crates, order)


def listing(parts: Parts, crates: Crates) -> str:
    """The text of crates.txt: its first comment, and the lines under their headings."""
    first = [line for line in read("crates.txt").splitlines() if line.startswith("#") and ":" in line]
    found = [table for table in parts if isinstance(table, Table)]
    blocks = [f"# {table.heading}\n" + "".join(crates[row[0]][1] + "\n" for row in table.rows) for table in found]
    return "".join(line + "\n" for line in first) + "".join(blocks)


def longest_chain(crates: Crates) -> list[str]:
    """The longest list of crates in which each uses the one before it."""
    chains: dict[str, list[str]] = {}

    def chain(name: str) -> list[str]:
        if name not in chains:
            below = [chain(use) for use in crates[name][2] if use in crates]
            chains[name] = max(below, key=len, default=[]) + [name]
        return chains[name]

    return max(map(chain, crates), key=len)


def differences(parts: Parts, crates: Crates) -> Iterator[str]:
    order, table_of = places(parts)
    yield from differences_of_crates(crates, order, table_of)
    for name in sorted(set(order) - set(crates)):
        yield f"{name}: has a row, and no line in crates.txt"
    for name in sorted(os.listdir(path("crates"))):
        if name not in crates and any(files(name)):
            yield f"{name}: has a folder, and no line in crates.txt"
    documents = [name for name in sorted(os.listdir(path("docs"))) if not name.endswith(".png")]
    for names in [("README.md",), *(("docs", name) for name in documents)]:
        yield from differences_of_document(crates, *names)


def differences_of_document(crates: Crates, *names: str) -> Iterator[str]:
    text = read(*names)
    gone = sorted({name for name in re.findall(r"`crates/(\w+)", text) if name not in crates})
    if gone:
        yield f"{os.path.join(*names)}: names what is no crate: {' '.join(gone)}"
    for file in sorted(set(re.findall(r"`(?:crates/)?(\w+/(?:src|specs|proofs)/[\w/]+\.(?:rt|antt))`", text))):
        if file.split("/")[0] in crates and not os.path.exists(path("crates", file)):
            yield f"{os.path.join(*names)}: names what is no file: {file}"


def differences_of_crates(crates: Crates, order: dict[str, int], table_of: dict[str, Table]) -> Iterator[str]:
    names = [name for name in crates if name in order]
    if names != sorted(names, key=order.__getitem__):
        yield "crates.txt: its lines come in another order than the rows"
    for name, (heading, _, uses) in crates.items():
        if not os.path.isdir(path("crates", name)):
            yield f"{name}: crates/ has no such folder"
        if name not in order:
            yield f"{name}: no table has a row"
            continue
        if heading != table_of[name].heading:
            other = table_of[name].heading
            yield f"{name}: stands under {heading!r} in crates.txt, and under {other!r} in the tables"
        row = next(row for row in table_of[name].rows if row[0] == name)
        if len(row) != 4 or row[2] != uses_cell(name, crates, order):
            yield f"{name}: its row doesn't say what crates.txt says: it uses {uses_cell(name, crates, order)}"
        above = [use for use in uses if order.get(use, -1) > order[name]]
        if above:
            yield f"{name}: uses what stands below it: {' '.join(above)}"
        code = code_of(name)
        words = set(re.findall(r"\w+", code))
        unused = [use for use in uses if use not in words]
        if unused:
            yield f"{name}: crates.txt lists what its files never cite: {' '.join(unused)}"
        cited = {use for pair in re.findall(r"\bRattle\.(\w+)\.|\buse (\w+)::", code) for use in pair}
        own = {name, *re.findall(r"\bmod (\w+);", code)}
        missing = sorted((cited & set(crates)) - own - set(uses))
        if missing:
            yield f"{name}: its files cite what crates.txt doesn't list: {' '.join(missing)}"


def main() -> None:
    parser = words_of(__doc__)
    parser.add_argument("--write", action="store_true", help="make the tables and crates.txt agree first")
    writes = parser.parse_args().write
    parts, crates = tables(read("docs", "architecture.md")), listed()
    if writes:
        agree(parts, crates)
        write("".join(map(str, parts)), "docs", "architecture.md")
        write(listing(parts, crates), "crates.txt")
        parts, crates = tables(read("docs", "architecture.md")), listed()
    found = list(differences(parts, crates))
    print("\n".join(found) or f"{len(crates)} crates: crates.txt, their files and the tables agree")
    chain = longest_chain(crates)
    print(f"the longest chain has {len(chain)}: {' '.join(chain)}")
    sys.exit(1 if found else 0)


if __name__ == "__main__":
    main()
