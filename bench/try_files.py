#!/usr/bin/env python3
"""Hands files to the programs that no test of the crates can: pipes and named pipes, standard input, files that are
replaced while they are read, names and words that aren't UTF-8, and every command on a source whose bodies are at the
limit of height, with 1 MB of stack.

It tells each answer that isn't the wanted one, and the exit status is 0 where there is none.
"""
from __future__ import annotations

import os
import resource
import subprocess
import sys
import tempfile
import threading
from collections.abc import Iterator, Sequence
from dataclasses import dataclass
from typing import NamedTuple, Optional, Union

from command_line import PROGRAM, WHY, program_of, words_of

STACK = 1 << 20
# Bodies may be 64 high.
HEIGHT = 64
GOOD = b"class Main { int low guarded_by this; atomic void main() { synchronized (this) { this.low = 1; } } }\n"
BAD = b"class Main { int low; int high; atomic void main() { this.low = 1; this.high = 2; } }\n"
LIMIT = 262144
COMMANDS = "check print derive blame run serialise serialise-open replay levels verify verify-blame".split()
# The statuses of an answer: a verdict, a machine's end, or a text that is no such text.
ENDS = {0, 2, 3, 4, 5, 11, 12, 13}

# A word of the command line, and what a program answers: its status and what it wrote.
Word = Union[str, bytes]
Answer = tuple[int, bytes]


def small_stack() -> None:
    resource.setrlimit(resource.RLIMIT_STACK, (STACK, STACK))


class Shape(NamedTuple):
    """Bodies that are higher by one or two for each time that `first` and `last` stand there."""

    name: str
    before: str
    first: str
    middle: str
    last: str
    behind: str

    def source(self, times: int) -> str:
        body = self.before + self.first * times + self.middle + self.last * times + self.behind
        main = f"void main() {{ synchronized (this) {{ {body} }} }}"
        return f"class Main {{ int low guarded_by this; int same(final int n) {{ return n; }} {main} }}\n"


SHAPES = [
    Shape("expressions", "this.low = ", "-(", "1", ")", ";"),
    Shape("sums", "this.low = ", "1 + (", "1", ")", ";"),
    Shape("calls", "this.low = ", "this.same(", "1", ")", ";"),
    Shape("blocks", "", "{ ", "this.low = 1;", " }", ""),
    Shape("branches", "", "if (this.low == 1) ", "this.low = 1;", " else { }", ""),
    Shape("loops", "", "while (this.low == 1) ", "this.low = 1;", "", ""),
    Shape("locks", "", "synchronized (this) { ", "this.low = 1;", " }", ""),
]


@dataclass
class Tries:
    """The programs, a folder for their files, and how many answers were looked at and were wrong."""

    program: str
    why: Optional[str]
    folder: str
    wrong: int = 0
    count: int = 0

    def run(
        self, words: Sequence[Word], why: bool = False, given: Optional[bytes] = None, small: bool = False
    ) -> Answer:
        """What the program answers, or `atomic_why`: with this input, where it is small with 1 MB of stack."""
        program: Word = (self.why or "") if why else self.program
        before = small_stack if small else None
        done = subprocess.run([program, *words], input=given, capture_output=True, timeout=120, preexec_fn=before)
        return done.returncode, done.stdout

    def want(self, what: str, found: Answer, *wanted: Answer) -> None:
        self.count += 1
        if found not in wanted:
            self.wrong += 1
            print(f"{what}: {found}, wanted {' or '.join(map(str, wanted))}")

    def put(self, name: str, data: bytes) -> str:
        path = os.path.join(self.folder, name)
        with open(path, "wb") as file:
            file.write(data)
        return path

    def rows(self) -> Iterator[tuple[bool, list[Word]]]:
        """Each program, with the words that it takes before a source's name."""
        yield False, ["check"]
        if self.why:
            yield True, []


def write_whole(path: str, data: bytes) -> None:
    try:
        with open(path, "wb") as file:
            file.write(data)
    except BrokenPipeError:
        pass  # A text that is too large isn't read to its end.


def try_pipes(tries: Tries) -> None:
    """What is read from front to back needs no seeking."""
    large = GOOD + b"// " + b"x" * (LIMIT - len(GOOD) - 4) + b"\n"
    sizes = [("small", GOOD), ("refused", BAD), ("at the limit", large), ("too large", large + b"\n")]
    for why, words in tries.rows():
        for what, data in sizes:
            plain = tries.put("plain", data)
            wanted = tries.run([*words, plain], why)
            status, text = tries.run([*words, "/dev/stdin"], why, given=data)
            own = text.replace(b"/dev/stdin", plain.encode())
            tries.want(f"{what} from standard input", (status, own), wanted)
            status, text = from_fifo(tries, words, why, data)
            own = text.replace(os.path.join(tries.folder, "fifo").encode(), plain.encode())
            tries.want(f"{what} from a named pipe", (status, own), wanted)


def from_fifo(tries: Tries, words: Sequence[Word], why: bool, data: bytes) -> Answer:
    fifo = os.path.join(tries.folder, "fifo")
    os.mkfifo(fifo)
    writer = threading.Thread(target=write_whole, args=(fifo, data))
    writer.start()
    answer = tries.run([*words, fifo], why)
    writer.join()
    os.unlink(fifo)
    return answer


def try_replaced(tries: Tries) -> None:
    """An answer is that of one of the two files, whenever the one takes the other's place."""
    filler = b"// " + b"x" * 60000 + b"\n"
    one, other = GOOD + filler + b"class A { }\n", filler * 3 + b"class B extends B { }\n"
    path = os.path.join(tries.folder, "replaced")
    answers = [tries.run(["check", tries.put("replaced", data)]) for data in (one, other)]
    stop = threading.Event()

    def replace() -> None:
        turn = 0
        while not stop.is_set():
            turn += 1
            os.replace(tries.put("beside", one if turn % 2 else other), path)

    replacing = threading.Thread(target=replace)
    replacing.start()
    try:
        for _ in range(200):
            tries.want("a file that is replaced", tries.run(["check", path]), *answers)
    finally:
        stop.set()
        replacing.join()


def try_words(tries: Tries) -> None:
    """A word that isn't UTF-8 stands in no row."""
    _, usage = tries.run([])
    tries.want("a name that isn't UTF-8", tries.run(["check", b"\xff"]), (9, usage))
    tries.want("a command that isn't UTF-8", tries.run([b"\xff", "a"]), (9, usage))
    missing = os.path.join(tries.folder, "nowhere")
    tries.want("no file", tries.run(["check", missing]), (6, f"cannot read {missing}\n".encode()))
    tries.want("a folder", tries.run(["check", tries.folder]), (6, f"cannot read {tries.folder}\n".encode()))


def highest(tries: Tries, shape: Shape) -> bytes:
    """The source with the highest body of this shape."""
    source = b""
    for times in range(1, HEIGHT):
        text = shape.source(times).encode()
        if tries.run(["print", tries.put("high", text)])[0] == 1:
            break
        source = text
    return source


def try_stack(tries: Tries) -> None:
    """Every command ends by itself with 1 MB of stack, and answers as with more."""
    schedule = tries.put("schedule", b"0\n" * 3)
    files = dict.fromkeys(["run", "serialise", "serialise-open", "replay"], schedule)
    files["levels"] = tries.put("levels", b"Main 1\n")
    for shape in SHAPES:
        source = tries.put("high", highest(tries, shape))
        files["verify"] = tries.put("book", tries.run(["derive", source])[1])
        files["verify-blame"] = tries.put("certificate", tries.run(["blame", source])[1])
        for command in COMMANDS:
            words = [command, source, *([files[command]] if command in files else [])]
            wanted = tries.run(words)
            if wanted[0] not in ENDS:
                tries.want(f"{shape.name}, {command}: its end", wanted)
            tries.want(f"{shape.name}, {command}, 1 MB of stack", tries.run(words, small=True), wanted)
        for words in ([source], ["--all", source]) if tries.why else ():
            wanted = tries.run(words, why=True)
            tries.want(f"{shape.name}, atomic_why, 1 MB of stack", tries.run(words, why=True, small=True), wanted)


def main() -> int:
    words = words_of(__doc__)
    words.add_argument("program", metavar="PROGRAM", type=program_of, help=PROGRAM)
    words.add_argument("why", metavar="WHY", type=program_of, nargs="?", help=WHY)
    found = words.parse_args()
    with tempfile.TemporaryDirectory() as folder:
        tries = Tries(found.program, found.why, folder)
        for part in try_pipes, try_replaced, try_words, try_stack:
            part(tries)
    print(f"{tries.count} answers, {tries.wrong} wrong")
    return 1 if tries.wrong else 0


if __name__ == "__main__":
    sys.exit(main())
