#!/usr/bin/env python3
"""Looks up what docs/PROVED.md and README.md say is proved.

Each crate of crates.txt has its place in docs/PROVED.md; each call, type, clause and file of definitions that stands
there between backquotes is in the crate that is spoken of, or in one that this uses or that the line names; and no cell
of a table has more than 70 words. It tells each name that isn't found, and the exit status is 0 where all are.

Whether a sentence says what the clause says no script can tell.
"""
from __future__ import annotations

import glob
import os
import re
import sys
from collections.abc import Generator, Iterator, Sequence

from command_line import TOP, words_of
from documents import read

# What is written or read, and no name: words of the command line, answers, and names of other files.
OTHER = re.compile(
    r"[A-Z]+(:[A-Z]+)*: error: KIND|--\w+|cannot read NAME|NAME is too large|.*\.(md|py|txt|java|edit)|rt\b.*|HANDLES"
)
# What a file of definitions, and one of code, calls something.
DEFINED = re.compile(r"^(?:abbrev )?(?:pub |unfoldable )*(?:record |data )?([\w-]+)\b", re.MULTILINE)
CODE = [
    re.compile(r"\b(?:fn|struct|enum|trait|mod|type) (\w+)"),
    re.compile(r"\b(?:ensures|requires) (\w+) \{"),
    re.compile(r"^    (\w+) ?[,({]", re.MULTILINE),
]
FIELD = re.compile(r"^ +pub (\w+) :", re.MULTILINE)
EXPORTED = re.compile(r"^pub use ([^;]*);", re.MULTILINE)
LONGEST_CELL = 70
# A crate's name, and maybe a name of it.
CRATE = re.compile(r"`(\w+)(?:::(\w+))?`")
WORD = re.compile(r"`([^`]+)`")
# The parts of the documents that speak of one crate's call as a whole.
TOP_CALLS = {
    "The call that `main` makes": "commands",
    "The call that `atomic_why` makes": "explain_commands",
    "The call that `atomic_witness` makes": "witness_commands",
    "The call that `atomic_trace` makes": "trace_commands",
}
# Words of the language, and of command lines.
COMMANDS = "check print run serialise serialise-open replay derive verify blame verify-blame levels generate"
KEYWORDS = {"extends", "main", "this", "synchronized", "atomic", *COMMANDS.split()}


def crate_uses() -> dict[str, list[str]]:
    """What each crate uses."""
    with open(f"{TOP}/crates.txt", encoding="utf-8") as lines:
        rows = [line.split(":") for line in lines if line.strip() and not line.startswith("#")]
    return {name: uses.split() for name, uses in rows}


USES = crate_uses()


class Names:
    """The names that the files of a crate give."""

    def __init__(self) -> None:
        self.known: dict[str, set[str]] = {}

    def of(self, crate: str) -> set[str]:
        if crate not in self.known:
            self.known[crate] = self.found(f"{TOP}/crates/{crate}")
        return self.known[crate]

    @staticmethod
    def found(folder: str) -> set[str]:
        names: set[str] = set()
        for path in glob.glob(f"{folder}/src/**/*.rt", recursive=True):
            text = read(path)
            names.update(name for form in CODE for name in form.findall(text))
            names.update(re.findall(r"\w+", " ".join(EXPORTED.findall(text))))
        for path in glob.glob(f"{folder}/specs/**/*.antt", recursive=True):
            names.add("specs/" + os.path.splitext(os.path.relpath(path, f"{folder}/specs"))[0])
            names.update(DEFINED.findall(read(path)) + FIELD.findall(read(path)))
        return names


def is_there(names: Names, crates: Sequence[str], word: str) -> bool:
    """Whether a word is a name of one of these crates: a call, or a type and a call of it."""
    parts = word.split("::")
    if parts[0] in USES:
        return all(part in names.of(parts[0]) for part in parts[1:])
    return any(all({part, f"specs/{part}"} & names.of(crate) for part in parts) for crate in crates)


def parts_of(text: str) -> Iterator[tuple[list[str], list[str]]]:
    """The document's parts: the headings above, and the lines."""
    heads: list[str] = []
    part: list[str] = []
    for line in text.splitlines():
        if match := re.match(r"(#+) (.*)", line):
            yield heads, part
            heads, part = heads[: len(match[1]) - 1] + [match[2]], []
        else:
            part.append(line)
    yield heads, part


def long_cells(lines: Sequence[str]) -> Iterator[str]:
    """Cells that are too long to be read."""
    for line in lines:
        for cell in line.split("|") if line.startswith("|") else []:
            if len(cell.split()) > LONGEST_CELL:
                yield f"a cell of {len(cell.split())} words: {cell.strip()[:60]}"


def crates_said(line: str, before: list[str]) -> list[str]:
    """The crates that a line of the list speaks of: those in bold at its head, else those of the line before."""
    head = re.match(r"- ((?:\*\*`\w+`\*\*(?:, )?)+)", line)
    return re.findall(r"\*\*`(\w+)`\*\*", head[1]) if head else before


def unknown_words(names: Names, crates: list[str], line: str) -> Iterator[str]:
    """The names of a line that neither these crates have, nor those that they use, nor those that the line names."""
    around = crates + [use for crate in crates for use in USES[crate] if use in USES]
    around += [word for word in re.findall(r"\w+", line) if word in USES]
    for word in WORD.findall(line):
        if OTHER.fullmatch(word) or word in USES or word in KEYWORDS:
            continue
        if re.fullmatch(r"(specs/)?[A-Za-z_][\w:-]*", word) and not is_there(names, around, word):
            yield word


def check_list(names: Names, lines: Sequence[str]) -> Generator[str, None, list[str]]:
    """What is wrong in the list of crates; and the crates that have a place in it."""
    crates: list[str] = []
    seen: list[str] = []
    for line in lines:
        crates = crates_said(line, crates) if not line.startswith("  ") else crates
        seen += crates if line.startswith("- ") else []
        for word in unknown_words(names, crates, line):
            yield f"{', '.join(crates)}: no `{word}`"
    return seen


def check_proved(names: Names) -> Iterator[str]:
    """What is wrong in docs/PROVED.md."""
    seen: list[str] = []
    for heads, lines in parts_of(read(f"{TOP}/docs/PROVED.md")):
        yield from long_cells(lines)
        if "Crate by crate" in heads:
            seen += yield from check_list(names, lines)
        elif heads and heads[-1] != "Statuses" and any(head in TOP_CALLS for head in heads):
            crate = TOP_CALLS[next(head for head in reversed(heads) if head in TOP_CALLS)]
            for line in lines:
                if not line.startswith("|"):
                    yield from (f"{crate}: no `{word}`" for word in unknown_words(names, [crate], line))
    for crate in USES:
        if seen.count(crate) != 1:
            yield f"docs/PROVED.md: {crate} has {seen.count(crate)} places"


def check_calls(names: Names, path: str) -> Iterator[str]:
    """Each call that a document names with its crate. Names of crates themselves are looked up by check_crates.py."""
    for crate, call in CRATE.findall(read(f"{TOP}/{path}")):
        if crate in USES and call and call not in names.of(crate):
            yield f"{path}: no {call} in {crate}"


def main() -> int:
    words_of(__doc__).parse_args()
    names = Names()
    wrong = list(check_proved(names))
    for path in ("README.md", "docs/PROVED.md", "docs/PROVING.md", "docs/DECISIONS.md", "docs/architecture.md"):
        wrong += check_calls(names, path)
    for line in wrong:
        print(line)
    print(f"{len(wrong)} wrong")
    return 1 if wrong else 0


if __name__ == "__main__":
    sys.exit(main())
