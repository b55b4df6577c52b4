r"""Unicode escapes in sources. Java turns `\u002a` into a `*` before it looks for comments, so a text with such an
escape may be another program there. The language has no escapes; in a source that is a program they stand in comments
alone."""
from __future__ import annotations

import re

from .lines import Fact

# a backslash with an even number of them right before it, and a `u` behind it
ESCAPE = re.compile(rb"(?<!\\)(?:\\\\)*(\\u)")
WARNING = r"\u is a unicode escape in Java: there this text may be another program"


def escapes_in(data: bytes) -> list[int]:
    """The offsets of unicode escapes."""
    return [found.start(1) for found in ESCAPE.finditer(data)]


def warnings_of(name: str, data: bytes) -> list[Fact]:
    """A line for each unicode escape of a source."""
    return [Fact(name, *place_in(data, offset), "warning", WARNING) for offset in escapes_in(data)]


def place_in(data: bytes, offset: int) -> tuple[int, int]:
    return data.count(b"\n", 0, offset) + 1, offset - data.rfind(b"\n", 0, offset)
