"""Tries each row of docs/java-differences.md (`jvm.py page`).

A row has what differs, a source, what `atomic` writes of it, and what Java does:

    `check`: `LINE`, ..          these lines are among those that are written
    `run SCHEDULE`: `LINE`, ..   likewise, and no other line of a print
    `javac`: `MESSAGE`           the first error of the source as Java (jvm_java) ends so; of its own text where the
                                 cell says "as it stands"
    `javac` takes it             there is none
    `java`: `LINE`, ..           the program prints these lines, when it is run as Java runs it
"""
import re
import subprocess
from typing import Iterator

import schedules
from documents import source_of, table_rows
from jvm_compare import Program
from jvm_java import java_of
from jvm_server import Server

PAGE = ("docs", "java-differences.md")
CODE = re.compile(r"`([^`]*)`")


def rows() -> list[list[str]]:
    return [row for row in table_rows(*PAGE) if len(row) == 4 and "`" in row[1]]


def written(program: Program, command: str, data: bytes) -> list[str]:
    """The lines that `atomic` writes."""
    word, _, schedule = command.partition(" ")
    if word == "run":
        return program.run(data, schedules.read(schedule))[1].splitlines()
    with open(program.file, "wb") as file:
        file.write(data)
    done = subprocess.run([program.path, word, program.file], stdout=subprocess.PIPE, check=False)
    return done.stdout.decode().splitlines()


def here(program: Program, cell: str, data: bytes) -> Iterator[str]:
    command, *lines = CODE.findall(cell)
    given = written(program, command, data)
    printed = [line for line in given if line.startswith("print ")]
    if any(line not in given for line in lines) or printed != [line for line in lines if line.startswith("print ")]:
        yield f"{command}: wanted {lines}, given {given}"


def in_java(server: Server, cell: str, data: bytes) -> Iterator[str]:
    codes = CODE.findall(cell)
    if not codes:
        return
    text = "package row; " + (data.decode() if "as it stands" in cell else java_of(data))
    error = server.compile({"row/Program.java": text})["row/Program.java"]
    if codes[0] == "java":
        printed = server.real("row") if not error else [error]
        if printed != codes[1:]:
            yield f"java: wanted {codes[1:]}, given {printed}"
    elif len(codes) > 1 and not error.endswith(codes[1]) or len(codes) == 1 and error:
        yield f"javac: wanted {codes[1:]}, given {error!r}"


def tried(program: Program, server: Server) -> tuple[int, list[str]]:
    """How many rows there are, and what is wrong with them."""
    wrong = []
    for _, source, ours, theirs in rows():
        data = source_of(source)
        found = [*here(program, ours, data), *in_java(server, theirs, data)]
        wrong += [f"{source[:200]}\n{text}" for text in found]
    return len(rows()), wrong
