#!/usr/bin/env python3
"""Runs what docs/java.md shows: its commands on its sources, and its tables, whose rows have a construct, the lines
that come, what is made of it, and the smallest source.

Each error of a source has to stand in its row, each note of an assumption, an approximation or a data race too, and
each line of the row has to come. The notes that explain an error may be left out, and what is assumed of code outside
the files, which is said of most sources. All sources are judged in one run, each in a package of its own.
"""
import argparse
import re
import shutil
import subprocess
import sys
import tempfile
from pathlib import Path

from documents import TEXT, blocks, read, source_of, table_rows
from java_sources import PROGRAM, Answer, Line, run

# The documents that show Java sources with the command and its answer.
DOCUMENTS = [("README.md",), ("docs", "java.md"), ("docs", "tutorial.md")]
TOLD = re.compile(r"(?!assumed: no code outside these files)(?:assumed|approximated|data race)\b")
ROW = re.compile(r"nothing|(?:`\d+:\d+: (?:error|note): [^`]*`(?:, |$))+")


def rows() -> list[list[str]]:
    """The rows of docs/java.md that have lines and a source."""
    return [row for row in table_rows("docs", "java.md") if len(row) == 4 and ROW.fullmatch(row[1])]


def shown(line: Line) -> str:
    """A line as a row has it; the source stands in the second line of its file."""
    return f"{line.line - 1}:{line.column}: {line.kind}: {line.text}"


def judged(sources: list[str], folder: Path, program: Path) -> tuple[Answer, list[Path]]:
    """The answer to these sources, and their files."""
    files = []
    for number, source in enumerate(sources):
        file = folder / f"row{number}" / "Row.java"
        file.parent.mkdir()
        file.write_text(f"package row{number};\n{source}\n", encoding="utf-8")
        files.append(file)
    return run([], files, program), files


def commands(program: Path) -> tuple[int, int]:
    """The blocks of the documents that begin with a command line: how many, and how many are wrong."""
    counts = [commands_of(program, *place) for place in DOCUMENTS]
    return sum(count for count, _ in counts), sum(wrong for _, wrong in counts)


def commands_of(program: Path, *place: str) -> tuple[int, int]:
    """Those of one document, in a folder with the examples and with the sources that it shows."""
    count = wrong = 0
    with tempfile.TemporaryDirectory() as folder:
        shutil.copytree(Path(__file__).resolve().parent.parent / "examples", folder, dirs_exist_ok=True)
        for text in blocks("java", *place):
            for name in re.findall(r"^public (?:final )?class (\w+)", text, re.MULTILINE)[:1]:
                Path(folder, name + ".java").write_text(text, encoding="utf-8")
        for command, text in re.findall(r"^```\n\$ atomic-java (.*)\n((?:.*\n)*?)```$", read(*place), re.MULTILINE):
            done = subprocess.run(
                [str(program.resolve()), *command.split()], capture_output=True, check=False, cwd=folder
            )
            count += 1
            if done.stdout.decode() != text:
                wrong += 1
                print(f"{'/'.join(place)}: {command}: wanted\n{text}given {done.returncode}\n{done.stdout.decode()}")
    return count, wrong


def checked(program: Path = PROGRAM) -> tuple[int, int] | None:
    """How many rows and commands there are and how many are wrong, each of which is told; none where there is no
    program."""
    if not program.exists():
        return None
    table, wrong = rows(), 0
    with tempfile.TemporaryDirectory() as name:
        answer, files = judged([source_of(row[-1]).decode().replace("\\|", "|") for row in table], Path(name), program)
    if answer.status not in (0, 2):
        print(f"docs/java.md: status {answer.status}: {(answer.rest + answer.lines)[:3]}")
        return len(table), len(table)
    for row, file in zip(table, files):
        given = [line for line in answer.lines if line.file == str(file)]
        wanted = [text for _, text in TEXT.findall(row[1])]
        asked = [shown(line) for line in given if line.kind == "error" or TOLD.match(line.text)]
        lacking = [text for text in wanted if text not in map(shown, given)] + [
            text for text in asked if text not in wanted
        ]
        if lacking:
            wrong += 1
            print(f"docs/java.md: {row[0]}: wanted {wanted}, given {asked}")
    shown_commands, wrong_commands = commands(program)
    return len(table) + shown_commands, wrong + wrong_commands


def main() -> None:
    """The rows of the document as it stands."""
    parser = argparse.ArgumentParser(description=__doc__, formatter_class=argparse.RawDescriptionHelpFormatter)
    parser.add_argument(
        "program", type=Path, nargs="?", default=PROGRAM, help="the launcher (default: java/out/atomic-java)"
    )
    found = checked(parser.parse_args().program)
    if found is None:
        sys.exit("there is no atomic-java: bench/java.sh builds it")
    print(f"{found[0]} rows and commands of documents, {found[1]} wrong")
    sys.exit(1 if found[1] else 0)


if __name__ == "__main__":
    main()
