"""Changes of a Java source that each take out one thing that makes it right: a lock, a guard, what a method wants
held."""
import re
from collections.abc import Iterator
from dataclasses import dataclass

HARMLESS = re.compile(r"// harmless without (\w+): (.*)$")
COMMENT = re.compile(r"/\*.*?\*/|//[^\n]*", re.DOTALL)
RULES = {
    "modifier": re.compile(r"\bsynchronized (?!\()"),
    "block": re.compile(r"\bsynchronized \((?:[^()]|\([^()]*\))*\) (?=\{)"),
    "lock": re.compile(r"[\w.()]+\.(?:lock|lockInterruptibly)\(\);"),
    "guard": re.compile(r"@GuardedBy\(\"[^\"]*\"\)\s+(?=\S)(?!(?:\w+\s+)*[\w<>\[\]]+\s+\w+\()"),
    "holding": re.compile(r"@(?:Holding|GuardedBy)\(\"[^\"]*\"\)\s+(?=(?:\w+\s+)*[\w<>\[\]]+\s+\w+\()"),
}
UNLOCK = re.compile(r"[\w.()]+\.unlock\(\);")


@dataclass(frozen=True)
class Mutant:
    """A changed source: what was taken out, on which line, and why that is harmless, if its line says so."""

    kind: str
    line: int
    taken: str
    text: str
    harmless: str


def blanked(text: str) -> str:
    """The text with blanks in place of comments, so that nothing in them is found."""
    return COMMENT.sub(lambda found: re.sub(r"[^\n]", " ", found[0]), text)


def without(text: str, start: int, end: int) -> str:
    """The text without a piece, whose line ends stay so that the lines keep their numbers."""
    return text[:start] + "\n" * text.count("\n", start, end) + text[end:]


def mutants(text: str) -> Iterator[Mutant]:
    """Each mutant of a source, rule by rule."""
    code, lines = blanked(text), text.splitlines()
    for kind, rule in RULES.items():
        for found in rule.finditer(code):
            line = code.count("\n", 0, found.start()) + 1
            said = HARMLESS.search(lines[line - 1])
            harmless = said[2] if said and said[1] == kind else ""
            taken = " ".join(found[0].split())
            changed = without(text, found.start(), found.end())
            yield Mutant(kind, line, taken, changed, harmless)
            if kind == "lock":
                unlock = UNLOCK.search(code, found.end())
                if unlock:
                    both = without(without(text, unlock.start(), unlock.end()), found.start(), found.end())
                    yield Mutant(kind, line, taken + " .. " + unlock[0], both, harmless)
