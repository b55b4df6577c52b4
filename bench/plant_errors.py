#!/usr/bin/env python3
"""plant_errors.py WHY [COUNT] [--show]: plants one error in accepted sources, and counts how often the place that
`atomic_why` names is the planted one.

The sources are the accepted examples and random programs, COUNT in all; then ten larger ones, each of them ten such
sources together. In each of the former each possible error of four kinds is planted by itself, in each of the larger
ones one that is drawn: a `synchronized` loses its lock, a method loses its `requires`, a field loses its guard, a
`synchronized` block is split in two between two of its statements. What is still accepted, or no longer well-formed,
doesn't count.

Named is the place of the first explanation that doesn't hand on to that of another method. It is right where it lies
  lock      in the block that lost its lock
  requires  in the method that lost its `requires`
  guard     at an access to the field that lost its guard
  split     in one of the two blocks, and the second of two steps in the second
The exit status is 0 where nine in ten are right, of the former and of the larger ones.
"""
from __future__ import annotations

import collections
import os
import random
import re
import subprocess
import sys
import tempfile
from collections.abc import Callable, Iterator
from dataclasses import dataclass
from typing import Optional

from command_line import TOP, WHY, count_of, program_of, words_of
from random_source import Generator

EXAMPLES = os.path.join(TOP, "examples")
TOKEN = re.compile(r"//[^\n]*|/\*.*?\*/|[A-Za-z_]\w*|\d+|\S", re.S)
LINE = re.compile(r"(.*?):(\d+):(\d+): (?:error|note): (.*) \[([a-z-]+)\]")
# a second step that is cmpd is a call of the method itself, and hands on to nothing
HANDS_ON = re.compile(r"(?:atomic step: |compound step: )?calls ([\w.]+), which is (?:an error itself|cmpd)")
# the codes of the lines that begin an explanation, and of those that name a place
HEADS = {"lock-error", "two-steps", "step-in-a-loop", "compound-call", "overriding-method"}
PLACES = {"first-step", "second-step", "repeated-step", "compound-step"}
PLACES |= {"guard-not-held", "guard-unnamed", "required-not-held", "required-unnamed", "calls-an-error"}
KINDS = ["lock", "split", "requires", "guard"]
LARGER, TOGETHER = 10, 10

# A note that names a place: its row, its column, and its text.
Note = tuple[int, int, str]


@dataclass(frozen=True)
class Planted:
    """An error: its kind, the source that has it, and whether the places and texts that are named are right."""

    kind: str
    text: str
    is_right: Callable[[list[int], list[str]], bool]


class Tokens:
    """The words of a text and where each begins."""

    def __init__(self, text: str) -> None:
        found = [match for match in TOKEN.finditer(text) if not match.group().startswith(("//", "/*"))]
        self.text, self.words = text, [match.group() for match in found]
        self.places = [match.start() for match in found]

    def partner(self, number: int) -> int:
        """The number of the bracket that closes the one with this number."""
        opens, depth = self.words[number], 0
        closes = {"(": ")", "{": "}"}[opens]
        for other in range(number, len(self.words)):
            depth += (self.words[other] == opens) - (self.words[other] == closes)
            if depth == 0:
                return other
        raise ValueError(f"{opens} isn't closed")

    def ends_of(self, first: int, last: int) -> list[int]:
        """The last tokens of the statements of a block, between its braces, but for the last statement."""
        ends, number = [], first + 1
        while number < last:
            end = self.partner(number) if self.words[number] in "({" else number
            if self.words[end] in ";}" and end + 1 < last and self.words[end + 1] != "else":
                ends.append(end)
            number = end + 1
        return ends


def blanked(text: str, first: int, last: int) -> str:
    """The text with blanks from one offset up to another, on the same lines."""
    return text[:first] + re.sub(r"[^\n]", " ", text[first:last]) + text[last:]


def within(first: int, last: int) -> Callable[[list[int], list[str]], bool]:
    """Whether a place that is named lies between two offsets."""
    return lambda places, told: any(first <= place <= last for place in places)


def block_errors(tokens: Tokens, number: int) -> Iterator[Planted]:
    """The errors of the `synchronized` with this number: without its lock, and split behind each of its statements."""
    opening = tokens.partner(number + 1) + 1
    closing = tokens.partner(opening)
    at, first, last = (tokens.places[one] for one in (number, opening, closing))
    yield Planted("lock", blanked(tokens.text, at, first), within(first, last))
    more = "} " + tokens.text[at:first] + "{"
    for end in tokens.ends_of(opening, closing):
        cut = tokens.places[end] + 1
        yield Planted("split", tokens.text[:cut] + more + tokens.text[cut:], in_both(at, cut, last + len(more)))


def in_both(first: int, cut: int, last: int) -> Callable[[list[int], list[str]], bool]:
    """Whether the first place that is named lies in front of the cut, and the second one behind it."""
    return lambda places, told: first <= places[0] <= cut and (len(places) < 2 or cut < places[1] <= last)


def requires_error(tokens: Tokens, number: int) -> Planted:
    """The error of the `requires` with this number: its method lacks it."""
    opening = tokens.words.index("{", number)
    first, last = tokens.places[opening], tokens.places[tokens.partner(opening)]
    return Planted("requires", blanked(tokens.text, tokens.places[number], first), within(first, last))


def guard_error(tokens: Tokens, number: int) -> Planted:
    """The error of the guard with this number: its field lacks it."""
    name, end = tokens.words[number - 1], tokens.places[tokens.words.index(";", number)]
    access = re.compile(rf"(reads|writes) \S*\b{name},")
    text = blanked(tokens.text, tokens.places[number], end)
    return Planted("guard", text, lambda places, told: any(access.search(each) for each in told))


def errors_of(text: str) -> Iterator[Planted]:
    """Every error that can be planted in a text."""
    tokens = Tokens(text)
    for number, word in enumerate(tokens.words):
        if word == "synchronized":
            yield from block_errors(tokens, number)
        elif word == "requires":
            yield requires_error(tokens, number)
        elif word in ("guarded_by", "write_guarded_by"):
            yield guard_error(tokens, number)


def blocks_of(lines: list[str]) -> list[tuple[str, list[Note]]]:
    """The explanations: of each the method, and its notes that name a place."""
    blocks: list[tuple[str, list[Note]]] = []
    for line in lines:
        found = LINE.fullmatch(line)
        if found is None:
            raise ValueError(f"{line} is no line of an explanation")
        _, row, column, text, code = found.groups()
        if code in HEADS:
            blocks.append((text.split()[0], []))
        elif code in PLACES:
            blocks[-1][1].append((int(row), int(column), text))
    return blocks


def named(text: str, lines: list[str]) -> Optional[tuple[list[int], list[str]]]:
    """The places and texts that the first explanation names which doesn't hand on to that of another method."""
    starts = [0]
    for line in text.split("\n"):
        starts.append(starts[-1] + len(line) + 1)
    blocks = blocks_of(lines)
    explained = {method for method, _ in blocks}
    for _, own in blocks:
        hands = [HANDS_ON.match(note[2]) for note in own]
        if own and not any(found and found[1] in explained for found in hands):
            return [starts[row - 1] + column - 1 for row, column, _ in own], [words for _, _, words in own]
    return None


class Trial:
    """Asks the program about sources, and counts where it names the planted place."""

    def __init__(self, program: str, folder: str, show: bool) -> None:
        self.program, self.folder, self.show = program, folder, show
        self.right: collections.Counter[str] = collections.Counter()
        self.all: collections.Counter[str] = collections.Counter()

    def told(self, text: str) -> tuple[int, list[str]]:
        """The status and the lines of the program for a source."""
        path = os.path.join(self.folder, "planted.java")
        with open(path, "w", encoding="ascii") as file:
            file.write(text)
        done = subprocess.run([self.program, path], capture_output=True)
        return done.returncode, done.stdout.decode().splitlines()

    def is_accepted(self, text: str) -> bool:
        return self.told(text)[0] == 0

    def looks(self, planted: Planted, group: str) -> bool:
        """Whether a planted error is refused, and so counts."""
        status, lines = self.told(planted.text)
        if status != 2:
            return False
        found = named(planted.text, lines)
        is_right = found is not None and planted.is_right(*found)
        self.all[group] += 1
        self.right[group] += is_right
        if self.show and not is_right:
            print(f"---- {group}\n{planted.text}\n" + "\n".join(lines))
        return True

    def tell(self, groups: list[str]) -> bool:
        """The figures of these groups and of all of them together; whether nine in ten are right."""
        for group in groups:
            print(f"{group}: {self.right[group]} of {self.all[group]}")
        right, every = (sum(count[group] for group in groups) for count in (self.right, self.all))
        print(f"all: {right} of {every}", flush=True)
        return right * 10 >= every * 9


def accepted_sources(trial: Trial, count: int) -> list[str]:
    """The accepted examples, and accepted random programs, so many in all."""
    found = []
    for name in sorted(os.listdir(EXAMPLES)):
        if name.endswith(".java"):
            with open(os.path.join(EXAMPLES, name), encoding="ascii") as file:
                found.append(file.read())
    found = [text for text in found if trial.is_accepted(text)]
    seed = 0
    while len(found) < count:
        text = Generator(seed, calm=True, extends=seed % 2 == 1).source()
        found += [text] * trial.is_accepted(text)
        seed += 1
    return found


def together(texts: list[str]) -> str:
    """One source of several: each with class names of its own, and a `Main` that does nothing."""
    out = []
    for number, text in enumerate(texts):
        names = re.findall(r"\bclass (\w+)", text)
        out.append(re.sub(rf"\b({'|'.join(names)})\b", rf"\g<1>{number}", text))
    return "\n".join(out) + "\nclass Main { void main() { } }\n"


def try_larger(trial: Trial, sources: list[str]) -> None:
    """One error in each of some larger sources, the kinds by turns."""
    chooser = random.Random(7)
    for number in range(LARGER):
        text = together(chooser.sample(sources, TOGETHER))
        errors = list(errors_of(text))
        chooser.shuffle(errors)
        errors.sort(key=lambda error: (KINDS.index(error.kind) - number) % len(KINDS))
        kind = next(error.kind for error in errors if trial.looks(error, "larger"))
        print(f"{text.count(chr(10))} lines, {len(errors)} possible errors, planted: {kind}")


def main() -> None:
    parser = words_of(__doc__)
    parser.add_argument("why", metavar="WHY", type=program_of, help=WHY)
    parser.add_argument(
        "count", metavar="COUNT", type=count_of, nargs="?", default=200, help="how many sources (default: 200)"
    )
    parser.add_argument("--show", action="store_true", help="write each error whose place isn't named")
    words = parser.parse_args()
    with tempfile.TemporaryDirectory() as folder:
        trial = Trial(words.why, folder, words.show)
        sources = accepted_sources(trial, words.count)
        for text in sources:
            for error in errors_of(text):
                trial.looks(error, error.kind)
        is_good = trial.tell(KINDS)
        try_larger(trial, sources)
        sys.exit(0 if trial.tell(["larger"]) and is_good else 1)


if __name__ == "__main__":
    main()
