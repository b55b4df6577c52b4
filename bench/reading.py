#!/usr/bin/env python3
"""Writes docs/READING.md, the reading list of the theorem, and docs/theorems.md, the index of its laws.

The reading list has every definition that the headline stands on, directly or through others, in an order in which
each uses only earlier ones, with the sentence that stands above it in its file. Behind that comes what each further
clause of the programs adds. Without --write both pages are compared with what stands in docs, and the exit
status is 1 where one differs.
"""
import re
import sys
from collections.abc import Iterable, Iterator
from dataclasses import dataclass, field
from pathlib import Path

import definitions
from command_line import words_of
from law_index import clean, crates, joined, quoted, theorem_index

TOP = Path(__file__).resolve().parent.parent

# The subjects, in the order in which a person reads them, each with its crates. No crate has two; the last subject has
# all crates that stand in no other.
SUBJECTS: list[tuple[str, str, list[str]]] = [
    (
        "Rules",
        "What a program is once its types are known, and what the checker asks of it. This is what a person has to "
        "believe, together with the machine.",
        ["base", "paths", "core_program", "algebra", "rules"],
    ),
    (
        "Machine",
        "What a state is, what one step of one thread does, and what a run of a schedule is.",
        ["state", "semantics"],
    ),
    (
        "From bytes to programs",
        "Tokens, grammar, classes and types: which bytes are a well-formed source, and of which program.",
        ["lexer", "syntax", "classes", "typing", "printer"],
    ),
    (
        "Verdicts, books, certificates",
        "The least assignment and the bound that it breaks; verdicts that others can check.",
        ["fixpoint", "effects", "infer", "conditions", "books", "book_check", "derive", "refutation"],
    ),
    (
        "Above the machine",
        "Orders of open calls, circles of waiting threads, plain evaluation, explanations.",
        ["serialise", "levels", "level_check", "replay", "explain", "places"],
    ),
    ("Texts and calls", "Which bytes are read and written, and what a call of the program is.", []),
]

# The clauses, in the order of their rows: name of the clause, its file, what it is for.
CLAUSES: list[tuple[str, str, str]] = [
    ("open_calls", "commands/OpenCalls", "every schedule that runs has an order that leaves open calls whole"),
    ("books", "commands/Books", "a book that is verified is of an accepted source"),
    (
        "refutations",
        "commands/Refutations",
        "a certificate that is verified is of a source without an admissible assignment",
    ),
    ("no_circles", "commands/NoCircles", "an ordered program reaches no circle of waiting threads"),
    ("replayed_calls", "commands/ReplayedCalls", "completed atomic calls agree with plain evaluation"),
    ("sentence", "explain_commands/Sentence", "`atomic_why` tells exactly the methods that break their bound"),
    ("serial", "trace_commands/Sentence", "a log that `atomic_trace` calls serial has a serial order"),
]

Item = tuple[Path, str]


@dataclass
class Entry:
    """A definition: its name, the sentence above it, and how many lines it takes."""

    name: str
    sentence: str
    lines: int


@dataclass
class Page:
    """A file of definitions: what its head says, and those of its definitions that are asked for, in their order."""

    path: Path
    head: str
    entries: list[Entry] = field(default_factory=list)

    @property
    def crate(self) -> str:
        return self.path.parent.parent.name

    @property
    def lines(self) -> int:
        return sum(entry.lines for entry in self.entries)


BEGINS = re.compile(r"\s*(?:abbrev |unfoldable )?(?:pub )?(?:(?:data|record) )?([^\W\d][\w'\-]*)(?= :| \(| \{|$)")


def comment_above(lines: list[str], at: int) -> str:
    """The comment that stands right above a line, as one text."""
    first = at
    while first > 0 and lines[first - 1].lstrip().startswith("--"):
        first -= 1
    return " ".join(line.strip().lstrip("-").strip() for line in lines[first:at])


def head_of(lines: list[str]) -> str:
    """The comment with which a file begins."""
    last = 0
    while last < len(lines) and lines[last].startswith("--"):
        last += 1
    return comment_above(lines, last)


def entries_of(path: Path, wanted: set[str]) -> Iterator[Entry]:
    """Those of a file's definitions whose names are wanted."""
    lines = path.read_text(encoding="utf-8").split("\n")
    starts = [at for at, line in enumerate(lines) if is_start(line)] + [len(lines)]
    found = {at: BEGINS.match(lines[at]) for at in starts[:-1]}
    names = {at: match.group(1) for at, match in found.items() if match}
    for at, until in zip(starts, starts[1:]):
        name = names.get(at)
        if name in wanted and at == place_of(name, names, lines):
            yield Entry(name, comment_above(lines, at), count_lines(lines[at:until]))


def place_of(name: str, names: dict[int, str], lines: list[str]) -> int:
    """The line that begins the definition of a name.

    It is the first of those that stand least far to the right, so no record's field.
    """
    return min(
        (at for at, other in names.items() if other == name),
        key=lambda at: (len(lines[at]) - len(lines[at].lstrip()), at),
    )


def is_start(line: str) -> bool:
    """Whether a line begins a definition: a signature, a record or a data type."""
    return (
        bool(
            re.match(
                r"\s{0,4}(?:abbrev |unfoldable )?(?:pub )?(?:data |record )?[^\W\d][\w'\-]*(?: \(.*| \{.*)? : ", line
            )
            or re.match(r"\s{0,4}(?:pub )?(?:data|record) ", line)
        )
        and " = " not in line.split(" : ")[0]
        and not line.startswith("      ")
    )


def count_lines(lines: Iterable[str]) -> int:
    """Lines that aren't empty and no comment."""
    return sum(
        1
        for line in lines
        if line.strip() and not line.lstrip().startswith("--") and not re.match(r"(module|pub mod|use) ", line.strip())
    )


def pages_of(items: Iterable[Item]) -> list[Page]:
    """The files that the items stand in, each behind those that it uses."""
    names: dict[Path, set[str]] = {}
    for path, name in items:
        names.setdefault(path, set()).add(name)
    place = {name: at for at, name in enumerate(crates())}
    found = []
    for path in sorted(names, key=lambda it: (place[it.parent.parent.name], it)):
        text = path.read_text(encoding="utf-8").split("\n")
        found.append(Page(path, head_of(text), list(entries_of(path, names[path]))))
    return in_order([page for page in found if page.entries])


def in_order(pages: list[Page]) -> list[Page]:
    """The pages of each crate in an order in which each uses only earlier ones."""
    known = {definitions.module_of(page.path): page for page in pages}
    done: list[Page] = []

    def visit(page: Page) -> None:
        if any(other is page for other in done):
            return
        for module in used_modules(page.path):
            other = known.get(module)
            if other is not None and other is not page:
                visit(other)
        done.append(page)

    for page in pages:
        visit(page)
    return done


def used_modules(path: Path) -> list[str]:
    """The modules that a file of definitions brings in."""
    found = re.findall(r"(?m)^(?:pub )?use (Rattle\.[\w.]+?)(?:\.\{|;|$| as )", path.read_text(encoding="utf-8"))
    return [str(module) for module in found]


def std_names(pages: list[Page]) -> list[str]:
    """The names of std that the files bring in."""
    found: set[str] = set()
    for page in pages:
        for names in re.findall(r"use Rattle\.std\.[\w.]+\.\{([^}]*)\}", page.path.read_text(encoding="utf-8")):
            found |= {name.strip() for name in names.split(",") if re.match(r"\w", name.strip())}
    return sorted(found, key=str.lower)


def misplaced() -> Iterator[str]:
    """What is wrong with the subjects: crates that aren't there, or have two."""
    placed = [name for _, _, names in SUBJECTS for name in names]
    for name in sorted(set(placed)):
        if name not in crates():
            yield f"bench/reading.py: there is no crate {name}"
        if placed.count(name) > 1:
            yield f"bench/reading.py: {name} has {placed.count(name)} subjects"


def subject_of(crate: str) -> str:
    for title, _, names in SUBJECTS:
        if crate in names:
            return title
    return SUBJECTS[-1][0]


def page_lines(page: Page) -> Iterator[str]:
    """A file of the list: its name, what its head says, and a row for each definition."""
    yield f"### `{page.path.relative_to(TOP / 'crates')}`"
    yield ""
    yield f"{clean(page.head)} {len(page.entries)} definitions, {page.lines} lines."
    yield ""
    yield "| definition | what it is |"
    yield "|---|---|"
    for entry in page.entries:
        yield f"| `{entry.name}` | {clean(entry.sentence)} |"
    yield ""


def totals(pages: list[Page]) -> str:
    count = sum(len(page.entries) for page in pages)
    return f"{count} definitions in {len(pages)} files, {sum(page.lines for page in pages)} lines"


def cited(world: definitions.World, name: str) -> set[Item]:
    """The definitions that a file of clauses cites, directly or through others.

    A data type stands for its constructors.
    """
    return {item for item in definitions.cited_from(world, definitions.specs(name)) if not is_constructor(world, item)}


def is_constructor(world: definitions.World, item: Item) -> bool:
    file = world.file(definitions.module_of(item[0]))
    return file is not None and item[1] in file.constructors


def headline_lines(pages: list[Page]) -> Iterator[str]:
    """The part of the list on the headline, by subject."""
    yield "## What the headline stands on"
    yield ""
    yield f"{totals(pages)}."
    yield ""
    for title, said, _ in SUBJECTS:
        own = [page for page in pages if subject_of(page.crate) == title]
        if own:
            yield from (f"## {title}", "", f"{said} {totals(own)}.", "")
            for page in own:
                yield from page_lines(page)


def clause_lines(world: definitions.World, seen: set[Item]) -> Iterator[str]:
    """What each further clause adds to the list."""
    for clause, name, said in CLAUSES:
        more = cited(world, name) - seen
        pages = pages_of(more)
        yield from (
            f"## What `{clause}` adds",
            "",
            f"{said[0].upper()}{said[1:]} (`{name.replace('/', '/specs/')}.antt`). {totals(pages)}.",
            "",
        )
        for page in pages:
            yield from page_lines(page)


INTRODUCTION = """# The reading list of the theorem

A proof shows that the program meets its contracts. It can't show that the contracts say what you want. For that,
somebody has to read the definitions that they are written in. This page lists them, so that you know what to read, and
when you are done.

Begin with *Rules* and *Machine*: they say what acceptance is and what a run is. If you believe these two, you know what
the theorem claims. The other parts tie both to bytes. Each file uses only files that stand before it, and words of the
standard library, which are listed at the end.

Types that are written in Rust (enumerations such as the five basic atomicities) aren't listed: they stand in the `src/`
folder of the same crate.

`bench/reading.py` writes this page from the sources, and the check of documents compares them.
"""


def reading_list() -> str:
    """The whole of docs/READING.md."""
    world = definitions.World()
    items = cited(world, "commands/Headline")
    pages = pages_of(items)
    lines = [joined(INTRODUCTION), *headline_lines(pages), *clause_lines(world, items)]
    lines += ["## Words of the standard library", "", quoted(std_names(pages)) + ".", ""]
    return "\n".join(lines)


def main() -> int:
    parser = words_of(__doc__)
    parser.add_argument("--write", action="store_true", help="write both pages")
    arguments = parser.parse_args()
    wrong = 0
    for line in misplaced():
        print(line)
        wrong = 1
    for name, text in (("READING.md", reading_list()), ("theorems.md", theorem_index())):
        path = TOP / "docs" / name
        if arguments.write:
            path.write_text(text, encoding="utf-8")
        elif not path.is_file() or path.read_text(encoding="utf-8") != text:
            print(f"docs/{name} isn't what the sources say: bench/reading.py --write")
            wrong = 1
    return wrong


if __name__ == "__main__":
    sys.exit(main())
