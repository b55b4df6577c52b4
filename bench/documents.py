"""The documents as check_docs.py and check_tools.py read them: tables, the sources that their cells describe, and
blocks."""
from __future__ import annotations

import os
import re
from collections.abc import Iterator

from command_line import TOP

TEXT = re.compile(r"(?:(\d+) times )?`([^`]*)`")


def read(*names: str) -> str:
    """A file of the repository."""
    with open(os.path.join(TOP, *names), encoding="utf-8") as file:
        return file.read()


def blocks(kind: str, *names: str) -> list[str]:
    """The blocks of a document that begin with this word."""
    found = re.findall(r"^```(\w*)\n(.*?)^```$", read(*names), re.MULTILINE | re.DOTALL)
    return [text for word, text in found if word == kind]


def table_rows(*names: str) -> Iterator[list[str]]:
    """The rows of a document's tables, each a list of cells."""
    for line in read(*names).splitlines():
        if line.startswith("| "):
            yield [cell.strip() for cell in line.strip("|").split(" | ")]


def source_of(cell: str) -> bytes:
    """The bytes that a cell describes: texts in backquotes, some of them several times; `nothing`; one byte."""
    byte = re.fullmatch(r"the byte ([0-9A-F]{2})", cell)
    if byte:
        return bytes([int(byte[1], 16)])
    return "".join(text * int(times or 1) for times, text in TEXT.findall(cell)).encode()
