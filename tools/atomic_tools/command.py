"""What the commands have in common: their words, how they write, and how they end.

A command is a function that reads its words and answers with a text and a status. `run` calls it, writes the text,
and ends. Whatever goes wrong ends in one line on standard error: no traceback, and no file that is cut off.

    0, 1, 2     what the command says itself; 2 also for wrong words
    3           a program isn't there or failed, a file can't be read, or the answer can't be written
    128 + N     the signal N came
"""
from __future__ import annotations

import argparse
import os
import signal
import sys
import tempfile
import traceback
from collections.abc import Callable
from dataclasses import dataclass
from types import FrameType
from typing import IO, NoReturn, Optional

from .version import version

FAILED = 3
# bodies are at most 64 nodes high, and a node takes a call for each level of its operators
MOST_CALLS = 10_000
# a longer reason is cut: a program that isn't `atomic` may write anything
MOST_SIGNS = 400
STOPPING = [signal.SIGTERM, signal.SIGHUP]


class Failed(Exception):
    """A program isn't there, or answered what these scripts don't know; a file can't be read or written."""


@dataclass
class Answer:
    """What a command writes, the file that it writes it to (standard output where none is named), and its status."""

    text: str
    status: int = 0
    output: Optional[str] = None


class Words(argparse.ArgumentParser):
    """A parser of words that writes as the commands do."""

    def _print_message(self, message: str, file: Optional[IO[str]] = None) -> None:
        if file is sys.stderr:
            say(message)
        else:
            write_answer(Answer(message))


def words_of(name: str, about: str, behind: str) -> Words:
    """The words that every command takes."""
    parser = Words(
        prog=name,
        description=about,
        epilog=behind,
        allow_abbrev=False,
        formatter_class=argparse.RawDescriptionHelpFormatter,
    )
    parser.add_argument("--version", action="store_true", help="say which version this is, and end")
    return parser


def with_output(parser: Words) -> None:
    text = "write to this file; under its name there is never a part of the text"
    parser.add_argument("-o", "--output", metavar="FILE", help=text)


def escaped(name: str) -> str:
    """A name as a terminal may show it: what can't be printed stands as an escape."""
    return "".join(sign if sign.isprintable() else escape_of(sign) for sign in name)


def escape_of(sign: str) -> str:
    # a byte of a name that isn't UTF-8
    if "\udc80" <= sign <= "\udcff":
        return f"\\x{ord(sign) - 0xDC00:02x}"
    return sign.encode("unicode_escape").decode("ascii")


# Writing.


def write_all(descriptor: int, data: bytes) -> None:
    left = memoryview(data)
    while left:
        left = left[os.write(descriptor, left) :]


def write_answer(answer: Answer) -> None:
    data = answer.text.encode("utf-8", "surrogateescape")
    place = "standard output" if answer.output is None else escaped(answer.output)
    try:
        if answer.output is None:
            write_all(1, data)
        else:
            write_file(answer.output, data)
    except OSError as error:
        raise Failed(f"cannot write {place}: {error.strerror}") from error


def write_file(name: str, data: bytes) -> None:
    """Writes beside the file and renames, so that its name stands for what it had before or for all of the data."""
    path = os.path.realpath(name)
    if os.path.exists(path) and not os.path.isfile(path):
        with open(path, "wb", buffering=0) as there:
            write_all(there.fileno(), data)
        return
    descriptor, beside = tempfile.mkstemp(prefix=".atomic-", dir=os.path.dirname(path))
    try:
        try:
            write_all(descriptor, data)
            os.fsync(descriptor)
        finally:
            os.close(descriptor)
        os.chmod(beside, mode_of(path))
        os.replace(beside, path)
    except BaseException:
        os.unlink(beside)
        raise


def mode_of(path: str) -> int:
    """The rights of a file; of one that isn't there those of any new one."""
    if os.path.exists(path):
        return os.stat(path).st_mode & 0o777
    mask = os.umask(0)
    os.umask(mask)
    return 0o666 & ~mask


# Ending.


def stopped(number: int, _: Optional[FrameType]) -> NoReturn:
    """A signal ends the command as any other end does, so temporary folders go."""
    raise SystemExit(128 + number)


def listen() -> None:
    for number in STOPPING:
        if signal.getsignal(number) is not signal.SIG_IGN:
            signal.signal(number, stopped)


def reason_of(error: Exception) -> str:
    """One line for what went wrong."""
    if isinstance(error, OSError):
        return (
            f"{escaped(os.fsdecode(error.filename))}: {error.strerror}"
            if error.filename
            else str(error.strerror or error)
        )
    if isinstance(error, MemoryError):
        return "there isn't enough memory"
    if isinstance(error, Failed):
        return shortened(escaped(str(error)))
    place = traceback.extract_tb(error.__traceback__)[-1]
    return shortened(escaped(f"{type(error).__name__} at {os.path.basename(place.filename)}:{place.lineno}: {error}"))


def shortened(line: str) -> str:
    return line if len(line) <= MOST_SIGNS else line[:MOST_SIGNS] + ".."


def say(text: str) -> None:
    try:
        write_all(2, text.encode("utf-8", "backslashreplace"))
    except OSError:
        pass


def run(parser: Words, words: Optional[list[str]], command: Callable[[argparse.Namespace], Answer]) -> NoReturn:
    """Reads the words, asks the command, writes its answer, and ends with its status."""
    sys.setrecursionlimit(MOST_CALLS)
    try:
        listen()
        if sys.stdout is None:
            raise Failed("standard output is closed")
        given = words if words is not None else sys.argv[1:]
        if "--version" in given[: given.index("--") if "--" in given else None]:
            answer = Answer(f"{parser.prog} {version()}\n")
        else:
            answer = command(parser.parse_intermixed_args(given))
        write_answer(answer)
    except KeyboardInterrupt:
        end(128 + signal.SIGINT)
    except Exception as error:
        say(f"{parser.prog}: {reason_of(error)}\n")
        end(FAILED)
    end(answer.status)


def end(status: int) -> NoReturn:
    raise SystemExit(status)
