"""The index of laws, docs/theorems.md, and what its page shares with the reading list.

A law is a public function without a body.
"""
from __future__ import annotations

import re
from collections.abc import Iterable, Iterator
from dataclasses import dataclass
from pathlib import Path

TOP = Path(__file__).resolve().parent.parent

LAWS = """# The laws, one by one

A law is a public function without a body: its contract is the theorem, and the check proves it. This page has a row for
each, in the order of the crates. `docs/PROVED.md` says what they come to together. `bench/reading.py` writes this page.
"""


def crates() -> list[str]:
    """All crates, each behind those that it uses."""
    text = (TOP / "crates.txt").read_text(encoding="utf-8")
    return [line.split(":")[0].split()[0] for line in text.splitlines() if ":" in line and not line.startswith("#")]


def joined(text: str) -> str:
    """A text with each paragraph on one line, as the documents have them."""
    return "\n\n".join(paragraph.replace("\n", " ").strip() for paragraph in text.split("\n\n")) + "\n"


def quoted(names: Iterable[str]) -> str:
    return ", ".join(f"`{name}`" for name in names)


def clean(text: str) -> str:
    return text.replace("|", "\\|").strip()


@dataclass
class Law:
    """A public function without a body: its contract is a theorem."""

    name: str
    file: Path
    said: str
    clauses: list[str]


LAW = re.compile(r"((?:^///[^\n]*\n)+)(?:^#\[[^\n]*\n)*^pub fn (\w+)(?:<[^>]*>)?\(\)((?:\n {4}[^\n]*)*)\n\{\}", re.M)


def laws() -> Iterator[Law]:
    """All laws, crate by crate; examples aside."""
    for crate in crates():
        if crate.endswith("_examples") or crate == "core_examples":
            continue
        for path in sorted((TOP / "crates" / crate / "src").rglob("*.rt")):
            text = path.read_text(encoding="utf-8")
            for found in LAW.finditer(text):
                said = " ".join(line.strip().lstrip("/").strip() for line in found.group(1).splitlines())
                yield Law(found.group(2), path, said, re.findall(r"(?m)^    ensures (\w+) ", found.group(3)))


def uses_of(crate: str) -> list[str]:
    """The crates whose proofs a crate's proofs cite."""
    found: set[str] = set()
    for path in (TOP / "crates" / crate / "proofs").rglob("*.antt"):
        found |= set(re.findall(r"use Rattle\.(\w+)\.proofs\.", path.read_text(encoding="utf-8")))
    return [name for name in crates() if name in found and name != crate]


def theorem_index() -> str:
    """The whole of docs/theorems.md."""
    lines = [joined(LAWS)]
    by_crate: dict[str, list[Law]] = {}
    for law in laws():
        by_crate.setdefault(law.file.parent.parent.name, []).append(law)
    for crate, own in by_crate.items():
        uses = quoted(uses_of(crate)) or "std alone"
        lines += [
            f"## `{crate}`",
            "",
            f"Its proofs cite: {uses}.",
            "",
            "| law | clauses | what it says |",
            "|---|---|---|",
        ]
        lines += [
            f"| `{law.name}` (`src/{law.file.name}`) | {quoted(law.clauses)} | {clean(law.said)} |" for law in own
        ]
        lines += [""]
    return "\n".join(lines)
