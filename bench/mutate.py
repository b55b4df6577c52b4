#!/usr/bin/env python3
"""Makes small lies in the definitions of crates (crates/CRATE/specs/*.antt), one at a time, and tells which of them
no example notices.

A lie is what a slip of the pen would be: the right sides of two neighbouring clauses exchanged, a constructor for
another of its type, a number one more, `<` for `≤` and back, a test negated, a part of a conjunction or a disjunction
left out, the branches of an `if` or the parts of `++` exchanged, two neighbouring arguments exchanged, an argument
for another one, a list without its rest.

Each is tried by computing: all examples of all crates (functions without a body, with clauses `left ≡ right`) that
compute the changed clause are computed once more by bench/definitions.py. That takes milliseconds. The lie is noticed
where the sides of one differ, or where it can no longer be computed. With --prove each lie that stands so far is
tried by the checker too, in a copy of the checkout outside of it: `rt check` of the crate itself, which proves its
laws anew and takes a minute or more.

One line for each lie that stands, with the place, the old text and the new one, and at the end a line for each crate:
  never     no example computes the clause
  STANDS    examples compute it, and notice nothing: an example is missing, or both read the same
Lies that only exchange what may be exchanged, as the arguments of `seq_of` or `max`, are counted and not printed.
`--cited commands/Headline` takes only definitions that this file cites, directly or through others, and with no crates
named all of them. `--list` only prints the lies; `--every N` tries each N-th. What is about types (a definition whose
value is a type, a field of a record) isn't tried: it computes nothing. The exit status is 0 where all were noticed."""
from __future__ import annotations

import shutil
import subprocess
import sys
import tempfile
from collections.abc import Iterable, Iterator
from dataclasses import dataclass
from pathlib import Path
from typing import Optional

import definitions as D
from command_line import count_of, words_of
from definition_files import Definition
from definition_lies import Changes, Lie, lies, reads_the_same


class Trial:
    """Examples with what they compute, and lies tried against them."""

    def __init__(self) -> None:
        self.world = D.World()
        self.by_point: dict[int, list[D.Example]] = {}
        for example in D.all_examples(
            [path.name for path in sorted((D.TOP / "crates").iterdir()) if (path / "src").is_dir()]
        ):
            if D.evaluate(self.world, example):
                for point in example.points:
                    self.by_point.setdefault(point, []).append(example)

    def computing(self, path: Path, definition: Definition, places: Iterable[int]) -> list[D.Example]:
        lines = [definition.clauses[place][0] for place in places]
        points = [self.world.points.get((path, line, "clause", definition.name)) for line in lines]
        found: dict[int, D.Example] = {}
        for point in points:
            for example in self.by_point.get(point, []) if point is not None else []:
                found[id(example)] = example
        return sorted(found.values(), key=lambda e: len(e.points))

    def noticed(self, definition: Definition, changes: Changes, examples: list[D.Example]) -> bool:
        kept, function = definition.clauses, definition.function
        definition.clauses = [(at, left, changes.get(k, right)) for k, (at, left, right) in enumerate(kept)]
        definition.function = None
        try:
            return any(not self.quick(example) for example in examples)
        finally:
            definition.clauses, definition.function = kept, function

    def quick(self, example: D.Example) -> bool:
        self.world.steps = 0
        self.world.most_steps = 200_000
        try:
            left, right = D.compute(self.world, example)
            return D.is_same(left, right)
        except Exception:
            return False
        finally:
            self.world.most_steps = None


def is_refused(definition: Definition, changes: Changes, path: Path) -> bool:
    """Whether the checker refuses a lie, in a copy of the checkout."""
    copy = Path(tempfile.mkdtemp())
    try:
        left_out = shutil.ignore_patterns(".git", "must-fail", "edits")
        shutil.copytree(D.TOP, copy, dirs_exist_ok=True, ignore=left_out)
        target = copy / path.relative_to(D.TOP)
        text = target.read_text()
        for k, other in changes.items():
            at, left, right = definition.clauses[k]
            lines = text.split("\n")
            start = "\n".join(lines[:at])
            rest = "\n".join(lines[at:])
            text = start + "\n" + rest.replace(right, other, 1)
        target.write_text(text)
        words = ["nice", "rt", "check", "--jobs", "1"]
        said = subprocess.run(words, cwd=target.parent.parent, capture_output=True, text=True, check=False)
        return "logic=proved" not in said.stdout + said.stderr
    finally:
        shutil.rmtree(copy, ignore_errors=True)


@dataclass
class Counts:
    """What became of the lies of a crate."""

    tried: int = 0
    noticed: int = 0
    refused: int = 0
    same: int = 0
    never: int = 0
    stand: int = 0

    def told(self, name: str) -> str:
        ended = (
            f"{self.noticed} noticed by examples, {self.refused} by laws, {self.same} exchange what may be exchanged"
        )
        return f"{name}: {self.tried} tried, {ended}, {self.stand} stand, {self.never} of them never computed"


@dataclass
class Asked:
    """Which lies are tried, and how."""

    every: int
    proves: bool
    cited: Optional[set[tuple[Path, str]]]

    def of(self, world: D.World, path: Path) -> Iterator[Lie]:
        """The lies of a file that are asked for."""
        file = world.file(D.module_of(path))
        for count, lie in enumerate(lies(world, file) if file else []):
            if count % self.every == 0 and (self.cited is None or (path, lie.definition.name) in self.cited):
                yield lie


def try_lie(trial: Trial, lie: Lie, path: Path, counts: Counts, proves: bool) -> None:
    counts.tried += 1
    examples = trial.computing(path, lie.definition, lie.changes)
    if trial.noticed(lie.definition, lie.changes, examples):
        counts.noticed += 1
    elif reads_the_same(lie.definition, lie.changes):
        counts.same += 1
    elif proves and is_refused(lie.definition, lie.changes, path):
        counts.refused += 1
    else:
        counts.stand += 1
        counts.never += not examples
        print(("STANDS  " if examples else "never   ") + lie.label(path), flush=True)


def try_all(names: list[str], asked: Asked) -> int:
    trial, stands = Trial(), 0
    for name in names:
        counts = Counts()
        for path in D.specs(name):
            for lie in asked.of(trial.world, path):
                try_lie(trial, lie, path, counts, asked.proves)
        print(counts.told(name))
        stands += counts.stand
    return 1 if stands else 0


def list_all(names: list[str], asked: Asked) -> int:
    for name in names:
        for path in D.specs(name):
            for lie in asked.of(D.World(), path):
                print(lie.label(path))
    return 0


def main() -> int:
    parser = words_of(__doc__)
    parser.add_argument("--list", action="store_true", help="only print the lies")
    parser.add_argument("--every", metavar="N", type=count_of, default=1, help="try each N-th")
    parser.add_argument("--prove", action="store_true", help="try lies that stand by the checker, too")
    parser.add_argument("--cited", metavar="CRATE/FILE", help="take only definitions that this file cites")
    parser.add_argument("names", metavar="CRATE[/FILE]", nargs="*")
    given = parser.parse_args()
    cited = D.cited_from(D.World(), D.specs(given.cited)) if given.cited else None
    names = given.names or sorted({path.parent.parent.name for path, _ in cited or []})
    if not names or not given.every:
        parser.error("no crate is named")
    asked = Asked(given.every, given.prove, cited)
    return list_all(names, asked) if given.list else try_all(names, asked)


if __name__ == "__main__":
    sys.exit(D.with_deep_stack(main))
