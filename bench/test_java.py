#!/usr/bin/env python3
"""Tests of atomic-java on sources whose verdicts are known.

adversaries  methods that look atomic and aren't (java/tests/adversaries): each is refused, and each right twin is
             accepted
users        classes as people bring them (java/tests/users): the verdicts that an expert wrote down before; a wrong
             alarm is told as one that may be wrong
larger       accepted sources of ordinary style (java/tests/larger)
mutants      these, each time without one lock, guard or @Holding: each is told, or its line says why that is harmless
reasons      each reason for which an error is told as certain, and what looks like it and is none (java/tests/reasons)
summaries    sources whose first line has the line of figures that comes (java/tests/summaries)
pieces       a source whose skeleton is too long for one text
own          the sources of atomic-java itself: no method is past a limit of the checker
inputs       no source, or no good one, answers that can't be written, Javas that won't do, and signals
             (java_inputs.py): one clear line, its status
growth       families of sources (java_families.py), each at a size and at four times that: the time grows with the size

The exit status is 0 where all hold. Without a name all are tried.
"""
import argparse
import re
import sys
import tempfile
from dataclasses import dataclass, field
from pathlib import Path
from typing import Optional

from java_families import FAMILIES, seconds
from java_inputs import INPUTS, SIGNALS, all_wrong
from java_mutants import Mutant, mutants
from java_sources import PROGRAM, TOP, Answer, Line, batches, java_version, marks, run, write_into_package

TESTS = TOP / "java" / "tests"
OPTIONS = re.compile(r"^// judged with: (.*)$", re.MULTILINE)
SINCE = re.compile(r"^// since: (\d+)$", re.MULTILINE)
RACE = "data race"
DOUBT = "this may be a wrong alarm"
GROWTH = {"chain": 600, "named": 500, "region": 600, "loops": 20}
TIMES = 4
MOST_TIMES = 7
LEAST_SECONDS = 0.25
MOST_SECONDS = 25
TURNS = 3


@dataclass
class Tester:
    """Counts what was looked at, and tells what is wrong."""

    program: Path
    folder: Path
    count: int = 0
    wrong: int = 0
    harmless: list[str] = field(default_factory=list)
    races: set[tuple[str, int, str]] = field(default_factory=set)

    def tell(self, text: str) -> None:
        """One thing that is wrong."""
        self.wrong += 1
        print(text)

    def judged(self, options: list[str], files: list[Path]) -> Answer:
        """A run that must end with an answer about the sources."""
        answer = run(options, files, self.program)
        if answer.status not in (0, 2):
            self.tell(
                f"status {answer.status} of {len(files)} sources from {files[0]} on: "
                f"{answer.rest[:3]} {answer.lines[:3]}"
            )
        return answer

    def marked(self, shown: str, text: str, file: Path, answer: Answer, whole: bool) -> None:
        """Holds the errors against the marks; `whole` says that each error has its mark."""
        errors = {line.line: line.text for line in answer.errors_of(file)}
        wanted = marks(text)
        for number, (mark, reason) in wanted.items():
            self.count += 1
            if (mark == "refused") != (number in errors):
                told = errors.get(number, "no error")
                self.tell(f"{shown}:{number}: wanted {mark}{': ' if reason else ''}{reason}, given {told}")
        for number in sorted(set(errors) - set(wanted)) if whole else []:
            self.tell(f"{shown}:{number}: no mark, given {errors[number]}")

    def adversaries(self) -> None:
        """Each adversary in a package of its own, many in one run with the same options; those that patch a module
        belong to java.util. One for a later Java than this is left out."""
        groups: dict[str, list[Path]] = {}
        version = java_version()
        for path in sorted((TESTS / "adversaries").glob("*.java")):
            text = path.read_text(encoding="utf-8")
            since, found = SINCE.search(text), OPTIONS.search(text)
            if since and int(since[1]) > version:
                print(f"{path.name}: left out: it wants Java {since[1]}, and this is {version}")
                continue
            groups.setdefault(found[1] if found else "", []).append(path)
        for options, batch in ((words.split(), part) for words, paths in groups.items() for part in batches(paths, 25)):
            texts = {path: path.read_text(encoding="utf-8") for path in batch}
            patched = "{folder}" in " ".join(options)
            copies = {
                path: write_into_package(
                    text, "java.util" if patched else "adversary." + path.stem.lower(), self.folder, path.name
                )
                for path, text in texts.items()
            }
            answer = self.judged([word.format(folder=self.folder) for word in options], list(copies.values()))
            for path, text in texts.items():
                self.marked(path.name, text, copies[path], answer, whole=False)

    def users(self) -> None:
        """Each class as its user judges it."""
        self.classes("users")

    def reasons(self) -> None:
        """What is certain and what is perhaps, side by side."""
        self.classes("reasons")

    def classes(self, folder: str) -> None:
        """Each class with a mark for each error."""
        for path in sorted((TESTS / folder).rglob("*.java")):
            text = path.read_text(encoding="utf-8")
            options = OPTIONS.search(text)
            answer = self.judged(options[1].split() if options else [], [path])
            self.marked(path.name, text, path, answer, whole=True)
            self.alarms(path, text, answer)

    def alarms(self, path: Path, text: str, answer: Answer) -> None:
        """Each wrong alarm says that it may be one, and what is marked as certain doesn't."""
        doubted = {line.line for line in answer.lines if line.text.startswith(DOUBT)}
        for number, (_, reason) in marks(text).items():
            if reason.startswith(("alarm", "perhaps")) and number not in doubted:
                self.tell(f"{path.name}:{number}: a wrong alarm is told as certain: {reason}")
            if reason.startswith("certain") and number in doubted:
                self.tell(f"{path.name}:{number}: what is certain is told as perhaps: {reason}")

    def larger(self) -> None:
        """The larger sources as they are."""
        files = sorted((TESTS / "larger").glob("*.java"))
        answer = self.judged([], files)
        self.count += len(files)
        for line in answer.lines:
            if line.kind == "error":
                self.tell(f"{Path(line.file).name}:{line.line}: wanted no error, given {line.text}")

    def summaries(self) -> None:
        """The figures of each source, in which a method with several errors counts once."""
        for path in sorted((TESTS / "summaries").glob("*.java")):
            wanted = path.read_text(encoding="utf-8").splitlines()[0].removeprefix("// summary: ")
            self.count += 1
            rest = self.judged([], [path]).rest
            if wanted not in rest:
                self.tell(f"{path.name}: wanted {wanted}, given {rest}")

    def pieces(self) -> None:
        """Each refused method of a long source is told once, in the order of the source, and no method is cut."""
        fields = " ".join(f"private int v{k};" for k in range(9))
        steps = " ".join(f"v{k % 9}++;" for k in range(60))
        kept = f"/* atomic */ synchronized void kept() {{ {steps} }}"
        twice = "/* atomic */ void twice() { kept(); kept(); }"
        classes = [f"class Part{k} {{ {fields}\n{kept}\n{twice} }}" for k in range(200)]
        path = write_into_package("\n".join(classes) + "\n", "pieces", self.folder, "Part0.java")
        answer = self.judged(["--infer"], [path])
        told = [line.line for line in answer.lines if line.kind == "error"]
        source = path.read_text(encoding="utf-8").splitlines()
        wanted = [line for line, text in enumerate(source, 1) if "twice()" in text]
        cut = [line.text for line in answer.lines if "limit:" in line.text]
        self.count += len(wanted)
        if told != wanted or cut:
            found = f"{len(told)} told, {len(cut)} methods cut: {(told + cut)[:3]}"
            self.tell(f"{path.name}: {len(wanted)} errors wanted, {found}")

    def own(self) -> None:
        """What the tool says of its own sources counts no method as compound for a limit of the checker."""
        answer = self.judged(["--public", "--infer"], [TOP / "java" / "src" / "atomic"])
        self.count += 1
        for line in answer.lines:
            if "limit:" in line.text:
                self.tell(f"{line.file}:{line.line}: {line.text}")

    def inputs(self) -> None:
        """What isn't a good source, or an answer that can't be written, has its status and one clear line."""
        self.count += len(INPUTS) + len(SIGNALS)
        for line in all_wrong(self.folder / "inputs", self.program):
            self.tell(line)

    def growth(self) -> None:
        """A source four times as long takes some four times as long. With the square of its length it takes sixteen
        times, and where loops in each other are written twice each, it never ends. Other processes lengthen a time, so
        what is too long is measured again."""
        empty = self.seconds_of("class A { }\n") or 0.0
        for name, size in GROWTH.items():
            self.count += 1
            fault = self.excess(name, size, empty)
            for _ in range(TURNS - 1):
                fault = fault and self.excess(name, size, empty)
            if fault:
                self.tell(fault)

    def seconds_of(self, source: str) -> Optional[float]:
        """The seconds that a source takes; None where they are too many."""
        return seconds(source, ["--public", "--infer"], MOST_SECONDS, self.program)

    def excess(self, name: str, size: int, empty: float) -> Optional[str]:
        """What is said of a family whose time grows faster than its size."""
        small = self.seconds_of(FAMILIES[name](size))
        large = self.seconds_of(FAMILIES[name](TIMES * size))
        if small is None or large is None:
            return f"{name}: size {TIMES * size} takes more than {MOST_SECONDS} s"
        if large - empty <= MOST_TIMES * max(small - empty, LEAST_SECONDS):
            return None
        more = f"{small - empty:.1f} s more than an empty class at size {size}"
        return f"{name}: {more}, {large - empty:.1f} s at {TIMES * size}"

    def is_new(self, path: Path, line: Line) -> bool:
        """Whether a line is a data race that the source itself hasn't."""
        return RACE in line.text and (path.name, line.line, line.text) not in self.races

    def mutants(self) -> None:
        """Each mutant in a package of its own, many in one run."""
        answer = self.judged([], sorted((TESTS / "larger").glob("*.java")))
        self.races = {(Path(line.file).name, line.line, line.text) for line in answer.lines if RACE in line.text}
        made = [
            (path, mutant)
            for path in sorted((TESTS / "larger").glob("*.java"))
            for mutant in mutants(path.read_text(encoding="utf-8"))
        ]
        for number, batch in enumerate(batches(made, 20)):
            copies = [
                write_into_package(mutant.text, f"mutant{number}_{place}", self.folder, path.name)
                for place, (path, mutant) in enumerate(batch)
            ]
            answer = self.judged([], copies)
            for (path, mutant), copy in zip(batch, copies):
                self.mutant(path, mutant, copy, answer)

    def mutant(self, path: Path, mutant: Mutant, copy: Path, answer: Answer) -> None:
        """A mutant is told by an error, or a race that the source hasn't."""
        self.count += 1
        told = [
            line
            for line in answer.lines
            if line.file == str(copy) and (line.kind == "error" or self.is_new(path, line))
        ]
        shown = f"{path.name}:{mutant.line}: without {mutant.taken!r}"
        if mutant.harmless:
            self.harmless.append(f"{shown} ({mutant.harmless})")
        if bool(told) == bool(mutant.harmless):
            self.tell(f"{shown}: " + (f"said to be harmless, given {told[0].text}" if told else "nothing is told"))


def main() -> None:
    """Tries the tests that are named."""
    names = ["adversaries", "users", "reasons", "larger", "summaries", "pieces", "own", "inputs", "growth", "mutants"]
    parser = argparse.ArgumentParser(description=__doc__, formatter_class=argparse.RawDescriptionHelpFormatter)
    parser.add_argument("tests", nargs="*", metavar="TEST", help=f"what is tried: {', '.join(names)}")
    parser.add_argument("--program", type=Path, default=PROGRAM, help="the launcher (default: java/out/atomic-java)")
    parser.add_argument("--keep", type=Path, help="a folder for the copies that are judged, which then stay")
    given = parser.parse_args()
    if set(given.tests) - set(names):
        parser.error(f"no test is called {', '.join(sorted(set(given.tests) - set(names)))}")
    if not given.program.exists():
        sys.exit(f"there is no {given.program}: bench/java.sh builds it")
    with tempfile.TemporaryDirectory() as folder:
        all_wrong = 0
        for name in given.tests or names:
            tester = Tester(given.program, given.keep or Path(folder))
            getattr(tester, name)()
            for line in tester.harmless:
                print(f"harmless: {line}")
            print(f"{name}: {tester.count} looked at, {tester.wrong} wrong", flush=True)
            all_wrong += tester.wrong
    sys.exit(1 if all_wrong else 0)


if __name__ == "__main__":
    main()
