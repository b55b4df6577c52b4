"""Which locks are held where in a method, by reading its text: the page's own reading, held against what the program
says.

    reading = Reading(source, method)
    reading.held[K]          what is held at the part K
    reading.guard(part)      the guard of an access, and its path here
    reading.told(tree, K)    a tree of the book at the part K, as a tree over what the caller holds

A path is a slot and fields, as in books: (0, 3) is the field 3 of `this`. What a caller holds stands for itself; a
`synchronized` adds its path; a final local is a second name of the path that it is declared with (docs/rules.md, "The
effect of a piece of code").
"""
from __future__ import annotations

from dataclasses import dataclass, field, replace
from typing import Optional, Union

from .parts import Class, Field, Method, Part
from .source import Source
from .trees import Path, Tree

MOST_FIELDS = 2

# whether a path is held: always, never, or where the caller holds another one
State = Union[bool, Path]


@dataclass(frozen=True)
class Held:
    """What is held at a place: each path always, never, or where the caller holds some path."""

    required: frozenset[Path]
    # slots below are `this` and the parameters
    locals: int
    # what a `synchronized` took, with its line
    taken: tuple[tuple[Path, int], ...] = ()
    # of a final local the path that it is a name of, None where it is a name of none, and what was held there
    names: dict[int, tuple[Optional[Path], Held]] = field(default_factory=dict)

    def state(self, path: Path) -> State:
        """True, False, or the path that the caller has to hold."""
        if any(path == taken for taken, _ in self.taken):
            return True
        if path[0] in self.names:
            named, before = self.names[path[0]]
            longer = named + path[1:] if named is not None else None
            return before.state(longer) if longer is not None and len(longer) <= 1 + MOST_FIELDS else False
        if path in self.required:
            return True
        return path if path[0] < self.locals else False

    def with_taken(self, path: Path, line: int) -> Held:
        return replace(self, taken=self.taken + ((path, line),))

    def with_name(self, slot: int, named: Optional[Path]) -> Held:
        """Behind the declaration of a final local: a second name of this path, or of none."""
        taken = tuple(one for one in self.taken if one[0][0] != slot)
        return replace(self, taken=taken, names={**self.names, slot: (named, self)})


class Reading:
    def __init__(self, source: Source, method: Method) -> None:
        self.source, self.method = source, method
        self.required = frozenset(self.lock_path(lock) for lock in method.requires)
        self.held: dict[int, Held] = {}
        self.walk(method.body, Held(self.required, 1 + len(method.parameters)))

    # Paths.

    def lock_path(self, names: list[str], slot: Optional[int] = None) -> Path:
        """The path of a lock that begins at `this`, a parameter, or the slot."""
        root = slot if slot is not None else self.method.slots.index(names[0])
        return (root,) + self.field_path(names[1:], self.class_of_slot(root))

    def class_of_slot(self, slot: int) -> Optional[Class]:
        if slot == 0:
            return self.method.owner
        parameters = self.method.parameters
        return self.source.by_name.get(parameters[slot - 1].type if slot <= len(parameters) else self.local_type(slot))

    def local_type(self, slot: int) -> str:
        return next(part.type for part in self.method.body.all() if part.word == "local" and part.slot == slot)

    def field_path(self, names: list[str], owner: Optional[Class]) -> Path:
        path: Path = ()
        for name in names:
            found = owner.field_named(name) if owner else None
            assert found is not None, f"there is no field {name}"
            path, owner = path + (found.number,), self.source.by_name.get(found.type)
        return path

    def path(self, part: Part) -> Optional[Path]:
        """The path of an expression, None where it has none."""
        if part.word == "this":
            return (0,)
        if part.word == "var":
            return (part.slot,) if part.final and part.type in self.source.by_name else None
        if part.word != "get":
            return None
        before, found = self.path(part.parts[0]), self.field(part)
        if before is None or found is None or not found.final or len(before) > MOST_FIELDS:
            return None
        return before + (found.number,) if found.type in self.source.by_name else None

    def field(self, part: Part) -> Optional[Field]:
        """The field that an access is about."""
        return self.source.field_of(part, self.method)

    def called(self, part: Part) -> Optional[Method]:
        """The method that a call names."""
        return self.source.called_by(part, self.method)

    def guard(self, part: Part) -> Optional[Path]:
        """Of an access to a guarded field: the guard's path here, None where it has none."""
        found, receiver = self.field(part), self.path(part.parts[0])
        if found is None or not found.guard or receiver is None:
            return None
        path = receiver + self.field_path(found.guard[1:], found.owner)
        return path if len(path) <= 1 + MOST_FIELDS else None

    def name(self, path: Path) -> str:
        """A path in the names of the method."""
        return ".".join([self.method.slots[path[0]]] + [self.source.fields[number].name for number in path[1:]])

    # The walk.

    def walk(self, part: Part, held: Held) -> Held:
        """What is held at the part, and at its own parts; what is held behind it in a block."""
        self.held[part.number] = held
        if part.word == "block":
            inner = held
            for own in part.parts:
                inner = self.walk(own, inner)
            return held
        inside = held
        if part.word == "sync":
            path = self.lock_path(part.lock, part.slot)
            if held.state(path) is not True:
                inside = held.with_taken(path, self.source.place(part.begin)[0])
        for own in part.parts:
            self.walk(own, inside)
        if part.word == "local" and part.final and part.type in self.source.by_name:
            return held.with_name(part.slot, self.path(part.parts[0]))
        return held

    def told(self, tree: Tree, number: int, known: Optional[dict[Path, bool]] = None) -> Tree:
        """The tree of a part, over the paths that the caller may hold."""
        known = known or {}
        if isinstance(tree, str):
            return tree
        path, with_it, without = tree
        state = self.held[number].state(path)
        if not isinstance(state, bool) and state in known:
            state = known[state]
        if isinstance(state, bool):
            return self.told(with_it if state else without, number, known)
        first = self.told(with_it, number, {**known, state: True})
        second = self.told(without, number, {**known, state: False})
        return first if first == second else (state, first, second)

    def text(self, tree: Tree, inside: bool = False) -> str:
        """A tree in the names of the method, as `check` prints one."""
        if isinstance(tree, str):
            return tree
        words = f"{self.name(tree[0])} ? {self.text(tree[1], True)} : {self.text(tree[2], True)}"
        return f"({words})" if inside else words
