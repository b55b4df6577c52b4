#!/usr/bin/env python3
"""Random sources of the language, printed as Java and judged by atomic-java: each verdict is the same or worse.

What `atomic_why` refuses in the source, atomic-java has to refuse in the Java text. What it refuses besides is counted.
Sources that aren't well-typed are drawn again; so are those in which something is refused for a lock under a second
name, that of a local, since atomic-java puts the first name in its place. Many sources are judged in one run, each in a
package of its own.

Printed as Java, an annotation stands where the language has a word; a constructor calls the one above; each method is
public, since `run` has to be; a class Touching writes each field, since one that nobody writes makes no step in Java;
what isn't final is assigned once more, so that it isn't effectively final either; and the condition of a loop isn't
constant, which javac would take as unreachable code.
"""
import argparse
import os
import re
import subprocess
import sys
import tempfile
from dataclasses import dataclass
from pathlib import Path

from java_sources import PROGRAM, TOP, Line, batches, run, write_into_package
from random_source import Class, Generator

WHY = Path(os.environ.get("ATOMIC_WHY", TOP / "crates" / "atomic_why" / "out" / "atomic-why-unproved"))
COUNTED = "calls a method that is an error itself"
REFUSED = re.compile(r"(?:.*\.)?(\w+\.\w+) is declared")
SECOND_NAME = re.compile(r"note: .*(?:\bx\d+\b.* isn't held here|is held here under another name)")
HEAD = re.compile(r"((?:atomic )?)(\w+ )(\w+)\(([^()]*)\)((?: requires [\w., ]+)?) \{(?= |$)")
FIELD = re.compile(r"(\w+ \w+) guarded_by ([\w.]+);")
LOCAL = re.compile(r"(?<!final )\b(?!return|new|final)([A-Za-z]\w*) (x\d+) = ([^;]*);")
INTERFACES = "@interface GuardedBy { String value(); } @interface Holding { String[] value(); }"


@dataclass(frozen=True)
class Drawn:
    """A random source, its Java text, and the methods that are refused in it."""

    seed: int
    source: str
    java: str
    refused: frozenset[str]


def method_head(found: re.Match[str]) -> str:
    """The head of a method in Java; a parameter that isn't final is assigned in front of the body."""
    atomic, result, name, parameters, requires = found.groups()
    if result.strip() in ("new", "if", "while", "synchronized", "else", "return"):
        return found[0]
    locks = re.findall(r"[\w.]+", requires.removeprefix(" requires"))
    holding = "@Holding({" + ", ".join(f'"{lock}"' for lock in locks) + "}) " if locks else ""
    loose = [one.split()[-1] for one in parameters.split(", ") if one and not one.startswith("final ")]
    again = "".join(f" {one} = {one};" for one in loose)
    return f"{holding}{'/* atomic */ ' if atomic else ''}public {result}{name}({parameters}) {{{again}"


def class_as_java(cls: Class, text: str) -> str:
    """A class whose constructor hands the inherited fields to the one above."""
    above = [field.name for field in cls.above.finals()] if cls.above else []
    own = "".join(f" this.{field.name} = {field.name};" for field in cls.finals() if field.name not in above)
    sets = " ".join(f"this.{field.name} = {field.name};" for field in cls.finals())
    called = f" super({', '.join(above)});" if above else ""
    return text.replace(f"{{ {sets} }}", f"{{{called}{own} }}", 1) if cls.finals() else text


def as_java(generator: Generator, source: str) -> str:
    """The source as Java."""
    text = " ".join(source.split()).replace("public ", "")
    starts = [text.index(f"class {cls.name} ") for cls in generator.classes] + [len(text)]
    parts = [class_as_java(cls, text[start:end]) for cls, start, end in zip(generator.classes, starts, starts[1:])]
    text = HEAD.sub(method_head, "".join(parts))
    text = FIELD.sub(r'@GuardedBy("\2") \1;', text)
    text = LOCAL.sub(r"\1 \2 = \3; \2 = \2;", text)
    text = re.sub(r"\bwhile \(", "while (new Object() != null && ", text)
    return f"{text}\nclass Touching {{ {' '.join(map(touched, generator.classes))} }}\n{INTERFACES}\n"


def touched(cls: Class) -> str:
    """A method that writes the fields of a class."""
    writes = " ".join(f"given.{field.name} = given.{field.name};" for field in cls.fields if not field.final)
    return f"void touch({cls.name} given) {{ {writes} }}"


def refused(lines: list[str]) -> frozenset[str]:
    """The methods that are refused in these lines."""
    found = (REFUSED.search(line) for line in lines if " error: " in line)
    return frozenset(one[1] for one in found if one)


def draw(seed: int, folder: Path, why: Path) -> Drawn | None:
    """The random source of a seed, or none where it isn't well-typed."""
    generator = Generator(seed, calm=seed % 3 != 0, extends=seed % 2 == 0)
    source = generator.source()
    without = any(cls.finals() and f"{cls.name}(" not in source for cls in generator.classes)
    if without:
        return None
    path = folder / "source.java"
    path.write_text(source, encoding="utf-8")
    done = subprocess.run([str(why), str(path)], capture_output=True, check=False)
    if done.returncode not in (0, 2) or SECOND_NAME.search(done.stdout.decode()):
        return None
    return Drawn(seed, source, as_java(generator, source), refused(done.stdout.decode().splitlines()))


def drawn(first: int, count: int, folder: Path, why: Path) -> list[Drawn]:
    """So many well-typed sources, from a seed on."""
    found: list[Drawn] = []
    while len(found) < count:
        one = draw(first, folder, why)
        found += [one] if one else []
        first += 1
    return found


def compare(batch: list[Drawn], folder: Path, program: Path) -> tuple[int, int]:
    """Judges the Java texts in one run, and tells each that is found better than its source: how many, and how many are
    worse."""
    files = [write_into_package(one.java, f"random{one.seed}", folder, "Main.java") for one in batch]
    answer = run([], files, program)
    if answer.status not in (0, 2):
        print(f"seeds {batch[0].seed} to {batch[-1].seed}: status {answer.status}: {(answer.rest + answer.lines)[:3]}")
        return len(batch), 0
    better = worse = 0
    for one, file in zip(batch, files):
        given = refused([f" error: {line.text}" for line in answer.errors_of(file)]) - {"Touching.touch"}
        if one.refused - given:
            better += 1
            print(f"seed {one.seed}: refused in the source alone: {', '.join(sorted(one.refused - given))}")
        more = given - one.refused - counted(answer.lines, file)
        if more:
            worse += 1
            print(f"seed {one.seed}: refused in Java alone: {', '.join(sorted(more))}")
    return better, worse


def counted(lines: list[Line], file: Path) -> frozenset[str]:
    """The methods that `atomic_why` only counts, since they call one that is an error; in Java each has its line."""
    pairs = zip(lines, lines[1:])
    return refused(
        [
            f" error: {line.text}"
            for line, behind in pairs
            if line.file == str(file) and line.kind == "error" and behind.text.startswith(COUNTED)
        ]
    )


def main() -> None:
    """Compares as many as are asked for."""
    parser = argparse.ArgumentParser(description=__doc__, formatter_class=argparse.RawDescriptionHelpFormatter)
    parser.add_argument("--count", type=int, default=100, help="how many sources (default: 100)")
    parser.add_argument("--seed", type=int, default=1, help="the first seed (default: 1)")
    parser.add_argument("--batch", type=int, default=25, help="how many in one run (default: 25)")
    parser.add_argument("--program", type=Path, default=PROGRAM, help="the launcher (default: java/out/atomic-java)")
    parser.add_argument(
        "--why", type=Path, default=WHY, help="atomic_why (default: $ATOMIC_WHY, else the one in crates/)"
    )
    parser.add_argument("--show", action="store_true", help="print the Java texts, and judge nothing")
    given = parser.parse_args()
    with tempfile.TemporaryDirectory() as name:
        folder = Path(name)
        found = drawn(given.seed, given.count, folder, given.why)
        if given.show:
            print("\n".join(f"// seed {one.seed}\n{one.java}" for one in found))
            return
        better = worse = 0
        for batch in batches(found, given.batch):
            counts = compare(batch, folder, given.program)
            better, worse = better + counts[0], worse + counts[1]
    same = given.count - better - worse
    print(f"random: {given.count} sources, {better} found better in Java, {worse} worse, {same} the same")
    sys.exit(1 if better else 0)


if __name__ == "__main__":
    main()
