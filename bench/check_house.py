#!/usr/bin/env python3
"""Measures what of the code is longer, wider or less clear than it should be, and holds that to what was there
before.

    functions over 40 lines (their bodies, but for rows of a table of words), files over 400 lines, more than six
        parameters, lines over 120 columns
    names that two modules of definitions give to two things
    Python functions without annotations, and scripts of bench/ that don't answer --help

bench/house.json has the most of each that may be there; a measure without a bound is only told. The exit status is 0
where nothing is above. A figure that is below is told, too: --write takes today's figures, so they can only fall from
there. Imports count for no width, since the formatter writes each on one line.
"""
from __future__ import annotations

import ast
import collections
import json
import os
import re
import subprocess
import sys
from collections.abc import Iterable, Iterator
from dataclasses import dataclass
from typing import Optional, Union

from command_line import HERE, TOP, words_of

MOST_LINES, MOST_FILE, MOST_PARAMETERS, MOST_COLUMNS = 40, 400, 6, 120
KEPT = os.path.join(HERE, "house.json")
FUNCTION = re.compile(r"^( *)(?:pub(?:\([\w ]+\))? )?(?:ghost )?(?:unsafe )?fn (\w+)")
DEFINED = re.compile(
    r"^ *(?:(?:abbrev|data|record|opaque) +pub|pub +(?:abbrev|data|record|opaque)) +([^\s:(]+)", re.MULTILINE
)
TABLE_ROW = re.compile(r'^ *[\w:]+ => "[^"]*",')
IMPORT = re.compile(r"^ *(?:pub )?(?:ghost )?(?:use|import|from) ")


# the most of each measure that may be there, None where any number may
Bounds = dict[str, Optional[int]]


@dataclass(frozen=True)
class Finding:
    """Something that is above a measure: which measure, where it is, and by how much."""

    measure: str
    place: str
    size: int


def files_of(*patterns: str) -> list[str]:
    """The files of the repository with such names."""
    words = ["git", "-C", TOP, "ls-files", "-z", "--cached", "--others", "--exclude-standard", "--", *patterns]
    listed = subprocess.run(words, capture_output=True, check=True).stdout.decode()
    return sorted(name for name in listed.split("\0") if name and os.path.exists(os.path.join(TOP, name)))


def lines_of(name: str) -> list[str]:
    with open(os.path.join(TOP, name), encoding="utf-8") as file:
        return file.read().split("\n")[:-1]


# Any text.


def lengths(kind: str, names: Iterable[str]) -> Iterator[Finding]:
    """Files that are too long, and lines that are too wide."""
    for name in names:
        lines = lines_of(name)
        if len(lines) > MOST_FILE:
            yield Finding(f"{kind}: files over {MOST_FILE} lines", name, len(lines))
        for number, line in enumerate(lines, 1):
            if len(line) > MOST_COLUMNS and not IMPORT.match(line):
                yield Finding(f"{kind}: lines over {MOST_COLUMNS} columns", f"{name}:{number}", len(line))


# Rattle.


def signature_of(lines: list[str], at: int) -> str:
    """The parameters of the function that begins on this line."""
    text = "\n".join(lines[at : at + 60])
    begin = text.index("(", text.index("fn "))
    depth = 0
    for place in range(begin, len(text)):
        depth += (text[place] in "([{") - (text[place] in ")]}")
        if depth == 0:
            return text[begin + 1 : place]
    return ""


def parameters_in(signature: str) -> int:
    """How many parameters there are, but for `self`."""
    depth, found = 0, [""]
    for sign in signature:
        depth += (sign in "([{<") - (sign in ")]}>")
        if sign == "," and depth == 0:
            found.append("")
        else:
            found[-1] += sign
    return sum(1 for one in found if one.strip() and not re.fullmatch(r"&?(mut )?self", one.strip()))


def body_of(lines: list[str], at: int, indent: str) -> list[str]:
    """The lines of a function's body; it begins with a brace at the function's own indent, or behind its head."""
    end = next((place for place in range(at, len(lines)) if lines[place] == indent + "}"), at)
    begin = next((place for place in range(at, end) if lines[place] == indent + "{"), None)
    if begin is None:
        begin = next((place for place in range(at, end) if lines[place].endswith("{")), end)
    return lines[begin + 1 : end]


def rattle(names: Iterable[str]) -> Iterator[Finding]:
    for name in names:
        lines = lines_of(name)
        for at, line in enumerate(lines):
            found = FUNCTION.match(line)
            if not found:
                continue
            place, body = f"{name}:{at + 1}: {found[2]}", body_of(lines, at, found[1])
            size = len([one for one in body if not TABLE_ROW.fullmatch(one)])
            if size > MOST_LINES:
                yield Finding(f"Rattle: functions over {MOST_LINES} lines", place, size)
            count = parameters_in(signature_of(lines, at))
            if count > MOST_PARAMETERS:
                yield Finding(f"Rattle: more than {MOST_PARAMETERS} parameters", place, count)


# Definitions.


def names_twice(names: Iterable[str]) -> Iterator[Finding]:
    """Names that more than one module of specs/ gives to something of its own."""
    modules: dict[str, list[str]] = collections.defaultdict(list)
    for name in names:
        with open(os.path.join(TOP, name), encoding="utf-8") as file:
            text = file.read()
        for defined in sorted(set(DEFINED.findall(text))):
            modules[defined].append(name[len("crates/") : -len(".antt")].replace("/specs/", "."))
    for defined, places in sorted(modules.items()):
        if len(places) > 1:
            yield Finding("definitions: names with several meanings", f"{defined}: {', '.join(places)}", len(places))


# Python.


def python(names: Iterable[str]) -> Iterator[Finding]:
    for name in names:
        with open(os.path.join(TOP, name), encoding="utf-8") as file:
            tree = ast.parse(file.read())
        for node in ast.walk(tree):
            if isinstance(node, (ast.FunctionDef, ast.AsyncFunctionDef)):
                yield from python_function(name, node)


def python_function(name: str, node: Union[ast.FunctionDef, ast.AsyncFunctionDef]) -> Iterator[Finding]:
    place = f"{name}:{node.lineno}: {node.name}"
    size = (node.end_lineno or node.lineno) - node.body[0].lineno + 1
    if size > MOST_LINES:
        yield Finding(f"Python: functions over {MOST_LINES} lines", place, size)
    given = node.args
    named = [one for one in [*given.posonlyargs, *given.args, *given.kwonlyargs] if one.arg not in ("self", "cls")]
    if len(named) > MOST_PARAMETERS:
        yield Finding(f"Python: more than {MOST_PARAMETERS} parameters", place, len(named))
    if node.returns is None or any(one.annotation is None for one in named):
        yield Finding("Python: functions without annotations", place, 1)


def without_help(names: Iterable[str]) -> Iterator[Finding]:
    """Scripts that have no parser of words, or don't run by their name."""
    for name in names:
        text = "\n".join(lines_of(name))
        is_script = text.startswith("#!") or '__name__ == "__main__"' in text
        if is_script and "words_of(__doc__)" not in text and "argparse.ArgumentParser(" not in text:
            yield Finding("Python: scripts without --help", name, 1)
        if is_script and not (text.startswith("#!") and os.access(os.path.join(TOP, name), os.X_OK)):
            yield Finding("Python: scripts that can't be run by their name", name, 1)


# The report.


def findings() -> list[Finding]:
    code, definitions = files_of("crates/*/src/*.rt"), files_of("crates/*/specs/*.antt")
    proofs, scripts = files_of("crates/*/proofs/*.antt"), files_of("*.py", "tools/atomic-*")
    found = [*lengths("Rattle", code), *lengths("definitions", definitions), *lengths("proofs", proofs)]
    found += [*rattle(code), *names_twice(definitions)]
    found += [*lengths("Python", scripts), *python(scripts), *without_help(files_of("bench/*.py"))]
    found += [*lengths("shell", files_of("*.sh", ".ci/run", "tools/pre-commit", "tools/atomic.bash"))]
    return found


def report(figures: dict[str, int], most: Bounds) -> list[str]:
    """A line for each measure; those that are above what may be there come back."""
    above = []
    for measure in sorted(set(figures) | set(most)):
        count, allowed = figures.get(measure, 0), most.get(measure, 0)
        if allowed is None:
            print(f"{count:6}                   {measure}")
            continue
        word = "ABOVE" if count > allowed else "below" if count < allowed else ""
        print(f"{count:6} of {allowed:6}  {word:5}  {measure}")
        above += [measure] if count > allowed else []
    return above


def tightened(figures: dict[str, int], most: Bounds) -> Bounds:
    """Today's figures in place of the bounds; a measure without a bound stays without."""
    free = {measure for measure, allowed in most.items() if allowed is None}
    return {
        measure: None if measure in free else figures.get(measure, 0) for measure in sorted(set(figures) | set(most))
    }


def main() -> None:
    parser = words_of(__doc__)
    parser.add_argument("--write", action="store_true", help="take today's figures for the most that may be there")
    parser.add_argument("--list", metavar="TEXT", help="list what is above each measure whose name has this text")
    given = parser.parse_args()
    found = findings()
    if given.list is not None:
        for one in sorted(found, key=lambda one: -one.size):
            if given.list in one.measure:
                print(f"{one.size:6}  {one.place}  ({one.measure})")
        return
    figures = collections.Counter(one.measure for one in found)
    with open(KEPT, encoding="ascii") as file:
        most: Bounds = json.load(file)
    if given.write:
        most = tightened(figures, most)
        with open(KEPT, "w", encoding="ascii") as file:
            file.write(json.dumps(most, indent=4) + "\n")
    above = report(figures, most)
    for measure in above:
        print(f"check_house.py: more than before: {measure} (--list '{measure}' names them)", file=sys.stderr)
    sys.exit(1 if above else 0)


if __name__ == "__main__":
    main()
