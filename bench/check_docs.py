#!/usr/bin/env python3
"""Runs what the documents show, and tells each line that the program doesn't write. PROGRAM is the built `atomic`,
proved (crates/atomic_cli/out/atomic_cli) or not (crates/atomic_cli/out/atomic-unproved, by bench/quick.sh).

It reads the tables of docs/repairs.md and docs/tutorial.md (a line in the first cell, and the source for it in the
last) and of examples/README.md (a file, the lines, the status), the blocks of lines in docs/tutorial.md, and the
blocks in docs/machine.md and docs/levels.md that begin with a command line. Where crates/atomic_cli has a test of the
examples, it is held against examples/as_test.py. The book that `derive` writes of each accepted example has to be
good, and changed books of it are refused with their lines. Each file that README.md and the documents name has to be
there. Where there are an `atomic_why` and an `atomic_witness`, as the scripts of tools/ find them, check_tools.py then
does the same for what these make; where there is an `atomic-java`, check_java.py does it for Java. The exit status is
0 where all of them hold.
"""
from __future__ import annotations

import os
import re
import subprocess
import sys
import tempfile
from collections.abc import Callable, Iterator
from typing import Optional

import check_java
import check_tools
from command_line import PROGRAM, TOP, program_of, words_of
from documents import TEXT, read, source_of, table_rows


def with_tree(book: str, tree: str, change: Callable[[str, int], str]) -> str:
    """The book with one tree more, whose number is handed to a change of the method lines."""
    head, rest = book.split("\n", 1)
    count = int(head.split()[1])
    at = rest.index("method ")
    return f"book {count + 1}\n{rest[:at]}{tree}\n{change(rest[at:], count)}"


def changed_books(book: str) -> Iterator[tuple[str, str]]:
    """The book itself and changed ones, each with a pattern for the line that is wanted."""
    yield "verified", book
    methods = re.findall(r"method \d+ \d+\n.*\n", book)
    count, last = len(methods), methods[-1]
    shape = "book refused: method {} node 0: shape"
    yield shape.format(count - 1), book.replace(last, "")
    more = re.sub(r"^method \d+", f"method {count}", last)
    yield shape.format(count), book.replace(last, last + more)
    yield shape.format(0), book.replace("\n(block ", "\n(start ", 1)
    yield r"book refused: method \d+ node \d+: shape", re.sub(r" \(\w+ \d+\)", "", book, count=1)
    yield "book refused at byte 0: form", book[1:]
    yield rf"book refused at byte {len(book) - 1}: form", book[:-1]
    yield "book refused: method 0: table", with_tree(book, "(63 const error)", in_head)
    yield "book refused: method 0: table", with_tree(book, "(0 error const)", in_head)
    yield r"book refused: method 0(: table| node 0: step)", with_tree(book, "error", in_body)


def in_head(lines: str, number: int) -> str:
    """The tree with this number as that of the first method."""
    return re.sub(r"^method 0 \d+", f"method 0 {number}", lines)


def in_body(lines: str, number: int) -> str:
    """The same as that of its body."""
    return re.sub(r"^(method 0 \d+\n\(\w+) \d+", rf"\1 {number}", lines)


EXAMPLES = os.path.join(TOP, "examples")
# a file of a crate, as documents name it
CITED = r"`(?:crates/)?(?!java/)(\w+/(?:src|specs|proofs)/[\w/]+\.\w+)`"


class Checker:
    def __init__(self, program: str) -> None:
        self.program, self.wrong, self.count = program, 0, 0

    def run(self, path: str, command: str = "check") -> tuple[int, list[str]]:
        done = subprocess.run([self.program, command, path], capture_output=True, check=False)
        return done.returncode, done.stdout.decode().splitlines()

    def want(self, place: str, path: str, lines: list[str], status: Optional[int] = None) -> None:
        given = self.run(path)
        self.count += 1
        if lines != given[1] or status not in (None, given[0]):
            self.wrong += 1
            print(f"{place}: wanted {status} {lines}, given {given[0]} {given[1]}")

    def want_line(self, place: str, path: str, line: str) -> None:
        given = self.run(path)[1]
        self.count += 1
        if line not in given:
            self.wrong += 1
            print(f"{place}: wanted {line!r}, given {given}")

    def tables(self, *names: str) -> None:
        """Each row with a line of `check`, or the lines that `print` writes, and a source."""
        with tempfile.TemporaryDirectory() as folder:
            path = os.path.join(folder, "source")
            for row in table_rows(*names):
                line = re.fullmatch(r"`((?:refused at|[A-Z]\w*\.\w+).*)`", row[0])
                printed = row[0].startswith("`print` writes ")
                if line or printed:
                    with open(path, "wb") as file:
                        file.write(source_of(row[-1]))
                if line:
                    self.want_line(os.path.join(*names), path, line[1])
                elif printed:
                    self.want_printed(os.path.join(*names), path, [text for _, text in TEXT.findall(row[0])][1:])

    def want_printed(self, place: str, path: str, lines: list[str]) -> None:
        given = [line.strip() for line in self.run(path, "print")[1]]
        self.count += 1
        if lines != given:
            self.wrong += 1
            print(f"{place}: wanted {lines}, given {given}")

    def files(self) -> None:
        """The files that README.md and the documents name."""
        documents = [name for name in sorted(os.listdir(os.path.join(TOP, "docs"))) if name.endswith(".md")]
        for names in [("README.md",), *(("docs", name) for name in documents)]:
            for path in re.findall(CITED, read(*names)):
                self.count += 1
                if not os.path.exists(os.path.join(TOP, "crates", path)):
                    self.wrong += 1
                    print(f"{os.path.join(*names)}: there is no crates/{path}")

    def examples(self) -> None:
        files = {name for name in os.listdir(os.path.join(TOP, "examples")) if name.endswith(".java")}
        for name, cell, status in (row for row in table_rows("examples", "README.md") if len(row) == 3):
            name = name.strip("`")
            if name in files:
                files.remove(name)
                lines = [text for _, text in TEXT.findall(cell)]
                self.want("examples/README.md", os.path.join(TOP, "examples", name), lines, int(status.strip()))
        for name in sorted(files):
            self.wrong += 1
            print(f"examples/README.md: {name} has no row")

    def tutorial(self) -> None:
        """Each block of lines belongs to the file that was named last before it."""
        name, block = "", []
        for line in read("docs", "tutorial.md").splitlines() + [""]:
            if line.startswith("    ") and re.match(r"    (refused at|[A-Z]\w*\.\w+[: ])", line):
                block.append(line.strip())
                continue
            if block:
                self.want("docs/tutorial.md", os.path.join(TOP, "examples", name), block)
                block = []
            named = re.findall(r"`examples/(\w+\.java)`", line)
            name = named[-1] if named else name

    def commands(self, *names: str) -> None:
        """The blocks that begin with a command line: what the command writes in the folder of the examples."""
        for command, text in re.findall(r"^```\n\$ atomic (.*)\n((?:.*\n)*?)```$", read(*names), re.MULTILINE):
            done = subprocess.run([self.program, *command.split()], capture_output=True, cwd=EXAMPLES, check=False)
            self.count += 1
            if done.stdout.decode() != text:
                self.wrong += 1
                print(f"{os.path.join(*names)}: wanted of {command}")
                print(f"{text}given {done.returncode}\n{done.stdout.decode()}")

    def books(self) -> None:
        """The derived book of each accepted example, and what is said of it where it is changed."""
        with tempfile.TemporaryDirectory() as folder:
            path = os.path.join(folder, "book")
            for name, _, status in (row for row in table_rows("examples", "README.md") if len(row) == 3):
                source = os.path.join(TOP, "examples", name.strip("`"))
                if status.strip() != "0" or not os.path.exists(source):
                    continue
                book = "\n".join([*self.run(source, "derive")[1], ""])
                for wanted, text in changed_books(book):
                    with open(path, "w", encoding="utf-8") as file:
                        file.write(text)
                    self.want_verified(wanted, source, path, text)

    def want_verified(self, wanted: str, source: str, path: str, text: str) -> None:
        done = subprocess.run([self.program, "verify", source, path], capture_output=True, check=False)
        status, said = (11 if "refused" in wanted else 0), done.stdout.decode()
        self.count += 1
        if not re.fullmatch(wanted + "\n", said) or done.returncode != status:
            self.wrong += 1
            print(f"{source}: wanted {wanted}, given {done.returncode} {said!r} of\n{text}")

    def examples_test(self) -> None:
        path = os.path.join(TOP, "crates", "atomic_cli", "src", "examples.rt")
        script = os.path.join(TOP, "examples", "as_test.py")
        if os.path.exists(path) and subprocess.run([sys.executable, script, "--check", path], check=False).returncode:
            self.wrong += 1
            print(f"{path} isn't what {script} writes")


def main() -> None:
    parser = words_of(__doc__)
    parser.add_argument("program", metavar="PROGRAM", type=program_of, help=PROGRAM)
    program = parser.parse_args().program
    checker = Checker(program)
    checker.tables("docs", "repairs.md")
    checker.tables("docs", "tutorial.md")
    checker.files()
    checker.examples()
    checker.tutorial()
    checker.commands("docs", "machine.md")
    checker.commands("docs", "levels.md")
    checker.examples_test()
    checker.books()
    print(f"{checker.count} answers, {checker.wrong} wrong")
    tools = check_tools.checked(program)
    lacking = "there is no atomic_why or no atomic_witness"
    print(lacking if tools is None else f"{tools[0]} answers of scripts, {tools[1]} wrong")
    java = check_java.checked()
    print("there is no atomic-java" if java is None else f"{java[0]} rows and commands with Java, {java[1]} wrong")
    sys.exit(1 if checker.wrong or tools and tools[1] or java and java[1] else 0)


if __name__ == "__main__":
    main()
