"""Small lies in definitions: what a slip of the pen would write, and which of them only exchange what may be
exchanged."""
from __future__ import annotations

import re
from collections.abc import Iterator
from dataclasses import dataclass
from pathlib import Path
from typing import Optional

from definition_compiler import Compiler, Meaning, applied
from definition_files import Definition, File
from definition_terms import Parser, Term, Unreadable
from definition_world import World

# the names that stand on the left of a clause, each with its type as far as it is known
Types = dict[str, Optional[str]]
# clauses with other right sides
Changes = dict[int, str]

FAMILIES = [
    ["Const", "Mover", "Atomic", "Cmpd", "Error"],
    ["Both", "Right", "Left", "Other", "Bare"],
    ["true", "false"],
    ["Null", "Zero", "Depth"],
    ["Less", "Greater", "Equal"],
    ["Name", "Word", "Sign"],
    ["Final", "Free", "Unnamed"],
    ["Some", "None"],
    ["Int", "Boolean"],
    ["Ok", "Err"],
]
# functions for which the order of two arguments makes no difference, with how many stand before these
COMMUTE = {"int_wrapping_add": 1, "int_wrapping_mul": 1, "pointwise": 1, "binary_type": 2}
for _name in (
    "seq_of join_of max min path_eq address_eq value_eq int_eq nat_eq bytes_eq is_same_type cond_eq same_mark "
    "are_alike is_same_result is_same_signature same_where_known are_same_places same_kind"
).split():
    COMMUTE[_name] = 0
# lists of faults, of which the first by offset and rank is told, wherever it stands
UNORDERED = {"List TypeFault", "List ClassFault"}
# names of offsets: what a rule gives doesn't depend on the offset that it tells its fault at
OFFSETS = {"at", "class", "first", "before"}
KEYWORDS = {"if", "then", "else", "let", "in", "record", "λ"}
EXCHANGED = [("nat_lt ", "nat_le "), ("nat_le ", "nat_lt "), ("list_any ", "list_all "), ("list_all ", "list_any ")]
EXCHANGED += [(" && ", " || "), (" || ", " && "), (" + ", " - "), ("not ", ""), ("reverse ", ""), ("max ", "min ")]


def atoms(text: str) -> list[tuple[int, int]]:
    """The atoms of an application: words and whole brackets."""
    found: list[tuple[int, int]] = []
    depth = 0
    start: Optional[int] = None
    for at, c in enumerate(text):
        if c == "(":
            if depth == 0 and start is None:
                start = at
            depth += 1
        elif c == ")":
            depth -= 1
            if depth == 0 and start is not None:
                found.append((start, at + 1))
                start = None
        elif depth == 0 and re.match(r"[\w'.]", c):
            if start is None:
                start = at
        elif depth == 0 and start is not None:
            found.append((start, at))
            start = None
    if start is not None and depth == 0:
        found.append((start, len(text)))
    return found


def is_balanced(text: str) -> bool:
    return text.count("(") == text.count(")") and text.count("{") == text.count("}")


def inside(text: str) -> Iterator[tuple[int, int]]:
    """The texts of all brackets in a text, with their places."""
    stack: list[int] = []
    for at, c in enumerate(text):
        if c == "(":
            stack.append(at)
        elif c == ")" and stack:
            start = stack.pop()
            yield start + 1, at


def lies_of_part(right: str, names: Types) -> Iterator[str]:
    """The texts that differ from this one in one small thing, where these names stand on the left."""
    yield from lies_of_signs(right)
    choice = re.match(r"^if (.*?)\s+then (.*?)\s+else (.*)$", right, re.S)
    if choice and all(map(is_balanced, choice.groups())):
        test, first, second = choice.groups()
        yield f"if {test} then {second} else {first}"
        yield f"if {test} then {first} else {first}"
        yield f"if {test} then {second} else {second}"
    found = atoms(right)
    for (a, b), (c, d) in zip(found[1:], found[2:]):
        left, behind = right[a:b], right[c:d]
        is_pair = right[b:c] == " " and left != behind and not {left, behind} & KEYWORDS
        if is_pair and names.get(left) == names.get(behind):
            yield right[:a] + behind + " " + left + right[d:]
    for a, b in found[1:]:
        for other in names:
            if other != right[a:b] and names.get(right[a:b]) == names[other]:
                yield right[:a] + other + right[b:]


def lies_of_signs(right: str) -> Iterator[str]:
    """Parts left out or exchanged at `&&`, `||`, `++` and `∷`."""
    for sign in (" && ", " || "):
        parts = right.split(sign)
        for cut in range(1, len(parts)):
            first, rest = sign.join(parts[:cut]), sign.join(parts[cut:])
            if is_balanced(first):
                yield first
                yield rest
    for sign in (" ++ ", " ∷ "):
        at = right.find(sign)
        if at > 0 and is_balanced(right[:at]) and not re.match(r"if |λ|let ", right):
            yield right[:at] if sign == " ++ " else f"{right[:at]} ∷ []"
            yield right[at + len(sign) :]
            if sign == " ++ ":
                yield f"({right[at + len(sign):]}) ++ ({right[:at]})"


def lies_of(right: str, names: Types) -> Iterator[str]:
    """The right sides that differ from this one in one small thing."""
    for family in FAMILIES:
        for index, name in enumerate(family):
            for found in re.finditer(
                rf"(?<![\w{{.]){re.escape(name)}(?![\w.])|(?<=[a-z]\.){re.escape(name)}(?![\w.])", right
            ):
                others = (
                    family[index + 1 :] + family[:index] if len(family) <= 3 else [family[(index + 1) % len(family)]]
                )
                for other in others:
                    yield right[: found.start()] + other + right[found.end() :]
    for found in re.finditer(r"(?<![\w.])\d+(?![\w.])", right):
        yield right[: found.start()] + str(int(found.group()) + 1) + right[found.end() :]
    for old, new in EXCHANGED:
        for found in re.finditer(re.escape(old), right):
            yield right[: found.start()] + new + right[found.end() :]
    yield from lies_of_part(right, names)
    for start, end in inside(right):
        for other in lies_of_part(right[start:end], names):
            yield right[:start] + other + right[end:]


def names_of(world: World, file: File, definition: Definition, left: str) -> Types:
    """The names that stand on the left of a clause, each with its type as far as it is known."""
    types: Types = {n: its for _, more in definition.modules for n, its in more}

    def note(pattern: Term, its: Optional[str]) -> None:
        if pattern[0] == "name":
            if its and pattern[1] != "_":
                types[pattern[1]] = its
        elif pattern[0] == "op" and pattern[1] == "∷":
            item = re.match(r"List (.*)$", its or "")
            of_item = item.group(1).strip() if item else None
            note(
                pattern[2], of_item[1:-1] if of_item and of_item.startswith("(") and of_item.endswith(")") else of_item
            )
            note(pattern[3], its)
        elif pattern[0] == "apply":
            head, arguments = applied(pattern)
            what = meaning_of(world, file, head)
            known = what[2] if len(what) > 2 and what[0] == "constructor" else [None] * len(arguments)
            for argument, of in zip(arguments, known):
                note(argument, "ℕ" if head[1] == "suc" else of)

    try:
        patterns = Compiler(world, file, definition).patterns(left)
    except Unreadable:
        return types
    for pattern, its in zip(patterns, definition.types):
        note(pattern, its)
    return types


def meaning_of(world: World, file: File, head: Term) -> Meaning:
    """What the head of a pattern is, nothing where that isn't known."""
    try:
        return world.lookup(file, head[1]) if head[0] == "name" else world.outside(file.aliases[head[1][1]], head[2])
    except (Unreadable, KeyError, TypeError):
        return ()


def lies(world: World, file: File) -> Iterator[Lie]:
    """The lies of a file: the definition, the clauses that are changed with their new right sides, and the old and
    new text."""
    for definition in file.definitions.values():
        if definition.is_type or not definition.clauses:
            continue
        clauses = definition.clauses
        for k, (at, left, right) in enumerate(clauses):
            names = names_of(world, file, definition, left)
            for other in dict.fromkeys(lies_of(right, names)):
                if other != right:
                    yield Lie(definition, {k: other}, right, other)
            if k + 1 < len(clauses) and clauses[k + 1][2] != right:
                following = clauses[k + 1][2]
                yield Lie(definition, {k: following, k + 1: right}, f"{right} / {following}", "exchanged")


def without_offsets(term: Term) -> Term:
    if not isinstance(term, list):
        return term
    if term[:1] == ["name"] and term[1] in OFFSETS or term[:1] == ["field"] and term[2] == "at":
        return ["offset"]
    return [without_offsets(part) for part in term]


def plain(term: Term, unordered: bool = False) -> Term:
    """A term in which arguments whose order makes no difference stand in one order, and offsets that are dropped have
    no name."""
    if not isinstance(term, (tuple, list)):
        return term
    parts = [plain(t, unordered) for t in term]
    if parts and parts[0] == "apply" and parts[1] == ["name", "gain"]:
        return [parts[0], parts[1], without_offsets(parts[2])]
    if parts and parts[0] == "apply" and isinstance(parts[1], list) and parts[1][:2] == ["apply", ["name", "given"]]:
        return [parts[0], ["apply", parts[1][1], without_offsets(parts[1][2])], parts[2]]
    if unordered and parts[:2] == ["op", "++"]:
        items = [i for p in parts[2:] for i in (p[1:] if p[:1] == ["all"] else [p])]
        return ["all"] + sorted(items, key=repr)
    if parts and parts[0] == "apply" and isinstance(parts[1], list) and parts[1][:1] == ["apply"]:
        head, before = parts[1][1], 0
        while isinstance(head, list) and head[:1] == ["apply"]:
            head, before = head[1], before + 1
        if isinstance(head, list) and head[:1] == ["name"] and COMMUTE.get(head[1]) == before:
            first, second = sorted([parts[1][2], parts[2]], key=repr)
            return ["apply", ["apply", parts[1][1], first], second]
    if parts and parts[0] == "op" and parts[1] in ("==", "+", "*", "&&", "||"):
        return parts[:2] + sorted(parts[2:], key=repr)
    return parts


def reads_the_same(definition: Definition, changes: Changes) -> bool:
    """Whether the lie only exchanges what may be exchanged."""
    try:
        free = definition.result in UNORDERED
        pairs = [(definition.clauses[place][2], other) for place, other in changes.items()]
        return all(plain(Parser(old).whole(), free) == plain(Parser(new).whole(), free) for old, new in pairs)
    except Unreadable:
        return False


def one_line(text: str) -> str:
    return re.sub(r"\s+", " ", text)


@dataclass
class Lie:
    """A definition with changed clauses, and the old and the new text."""

    definition: Definition
    changes: Changes
    old: str
    new: str

    def label(self, path: Path) -> str:
        at = self.definition.clauses[min(self.changes)][0]
        place = f"{path.parent.parent.name}/{path.stem}:{at + 1}"
        return f"{place} {self.definition.name}: {one_line(self.old)}  =>  {one_line(self.new)}"
