"""What the tests share: a folder that goes, and the commands with what they write."""
from __future__ import annotations

import os
import subprocess
import sys
import tempfile
import unittest
from typing import NamedTuple, Optional

from atomic_tools.programs import CRATE_OF, program

TOOLS = os.path.dirname(os.path.dirname(os.path.abspath(__file__)))
TOP = os.path.dirname(TOOLS)
EXAMPLES = os.path.join(TOP, "examples")

ACCEPTED = b"class Main { int v guarded_by this; atomic void main() { synchronized (this) { this.v = 1; } } }\n"
REFUSED = b"class Main { int v; atomic void main() { this.v = 1; this.v = 2; } }\n"
# names that shells, readers of lines and makers of addresses take apart
EVIL = [
    "a b.java",
    "quote'.java",
    'double".java',
    "`touch pwned`.java",
    "$(touch pwned).java",
    "a&touch pwned&.java",
    "a;touch pwned;.java",
    "new\nline.java",
    "x:1:1: error: A.b is declared atomic, found cmpd\nf.java",
    "carriage\rreturn.java",
    "v\x0bf\x0cn\u0085l\u2028.java",
    "per%cent#.java",
    "back\\slash.java",
    "$dollar:colon.java",
    "star*[q]?.java",
    "esc\x1b[31m.java",
]


class Ended(NamedTuple):
    """How a process ended, and what it wrote."""

    status: int
    text: str
    errors: str


def run(words: list[str], folder: str, given: Optional[bytes] = None, more: Optional[dict[str, str]] = None) -> Ended:
    """A program, with the proved ones in its environment."""
    known = {name.upper(): found for name in CRATE_OF for found in [program(name)] if found}
    environment = {**os.environ, **known, **(more or {})}
    done = subprocess.run(words, cwd=folder, env=environment, input=given or b"", capture_output=True, check=False)
    return Ended(
        done.returncode, done.stdout.decode("utf-8", "surrogateescape"), done.stderr.decode("utf-8", "surrogateescape")
    )


def command(name: str) -> list[str]:
    """The words that run one of the commands with this Python."""
    return [sys.executable, os.path.join(TOOLS, name)]


class InFolder(unittest.TestCase):
    """A test with a folder of its own."""

    def setUp(self) -> None:
        holder = tempfile.TemporaryDirectory()
        self.addCleanup(holder.cleanup)
        self.folder = holder.name

    def path(self, name: str) -> str:
        return os.path.join(self.folder, name)

    def write(self, name: str, data: bytes) -> str:
        path = self.path(name)
        with open(path, "wb") as file:
            file.write(data)
        return path

    def read(self, name: str) -> bytes:
        with open(self.path(name), "rb") as file:
            return file.read()

    def script(self, name: str, text: str) -> str:
        """A program of the shell's."""
        path = self.write(name, b"#!/bin/sh\n" + text.encode())
        os.chmod(path, 0o755)
        return path

    def run_tool(
        self, name: str, *words: str, given: Optional[bytes] = None, more: Optional[dict[str, str]] = None
    ) -> Ended:
        return run([*command(name), *words], self.folder, given, more)
