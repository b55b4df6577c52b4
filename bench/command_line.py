"""The words of the scripts of this folder, and where the package of tools/ is.

    words = words_of(__doc__)                an argparse parser that says what the script's own text says
    words.add_argument("program", metavar="PROGRAM", type=program_of, help=PROGRAM)

Importing this module lets the scripts import `atomic_tools`, and lets them end in silence, with status 3, where nobody
reads what they write any more or an interrupt comes.
"""
from __future__ import annotations

import argparse
import os
import sys
from collections.abc import Sequence
from types import TracebackType
from typing import Any, NoReturn, Optional

HERE = os.path.dirname(os.path.abspath(__file__))
TOP = os.path.dirname(HERE)
TOOLS = os.path.join(TOP, "tools")
if TOOLS not in sys.path:
    sys.path.insert(0, TOOLS)

PROGRAM = "the built `atomic`, proved or not"
WHY = "the built `atomic_why`, proved or not"


def end_of(kind: type[BaseException], error: BaseException, trace: Optional[TracebackType]) -> None:
    """Ends the script at an error that nobody caught."""
    if issubclass(kind, (BrokenPipeError, KeyboardInterrupt)):
        os._exit(3)
    sys.__excepthook__(kind, error, trace)


sys.excepthook = end_of


class Words(argparse.ArgumentParser):
    """A parser that takes options between other words, too, and ends with a status that the script may choose where
    words are wrong."""

    wrong = 2

    def parse_args(self, args: Optional[Sequence[str]] = None, namespace: Any = None) -> Any:
        return self.parse_intermixed_args(args, namespace)

    def error(self, message: str) -> NoReturn:
        self.print_usage(sys.stderr)
        self.exit(self.wrong, f"{self.prog}: error: {message}\n")


def words_of(text: Optional[str]) -> Words:
    """A parser for a script whose first lines say what it does."""
    form = argparse.RawDescriptionHelpFormatter
    return Words(description=(text or "").strip(), formatter_class=form, allow_abbrev=False)


def program_of(path: str) -> str:
    """The whole path of a program that can be run."""
    if not os.access(path, os.X_OK) or os.path.isdir(path):
        raise argparse.ArgumentTypeError(f"{path} is no program")
    return os.path.abspath(path)


def count_of(text: str) -> int:
    """A number of things, from 0 on."""
    if not text.isascii() or not text.isdigit():
        raise argparse.ArgumentTypeError(f"{text} is no number")
    return int(text)


def set_programs(atomic: Optional[str] = None, why: Optional[str] = None) -> None:
    """Lets the package run these programs."""
    for name, path in (("ATOMIC", atomic), ("ATOMIC_WHY", why)):
        if path:
            os.environ[name] = path
