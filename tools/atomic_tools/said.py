"""What the page says of a part: its basic, what it is by which rule, and which locks are held at it."""
from __future__ import annotations

import re
from collections.abc import Callable

from .held import Held
from .parts import Field, Method, Part
from .views import View

# what an access is, by whether its guard guards writes alone, and whether it writes
RULES = {
    (False, False): "a mover where that is held, else an error",
    (False, True): "a mover where that is held, else an error",
    (True, False): "a mover where that is held, else atomic",
    (True, True): "atomic where that is held, else an error",
}


def said_of(part: Part, view: View) -> list[str]:
    """The basic of a part, what it is by which rule, and which locks are held at it; and the program's tree of it."""
    lines = [view.basic(part) or "", WORDS[part.word](part, view), held_here(view.reading.held[part.number], view)]
    tree = view.trees.get(part.number)
    if tree and not isinstance(tree, str):
        lines.append(view.reading.text(tree))
    return lines


def held_here(held: Held, view: View) -> str:
    taken = [f"{view.reading.name(path)} (line {line})" for path, line in held.taken]
    asked = [f"{view.reading.name(path)} (required)" for path in sorted(held.required)]
    return "held here: " + (", ".join(asked + taken) or "nothing")


def said_of_access(part: Part, view: View) -> str:
    field = field_of(part, view)
    writes = part.word == "put"
    name = f"{'writes' if writes else 'reads'} {field.owner.name}.{field.name}"
    if field.final:
        return f"{name}, a final field"
    if not field.guard:
        return f"{name}, which nothing guards: atomic"
    path = view.reading.guard(part)
    word = "write_guarded_by" if field.writes_only else "guarded_by"
    here = "which has no name here" if path is None else f"here {view.reading.name(path)}"
    return f"{name}, {word} {'.'.join(field.guard)}, {here}: {RULES[field.writes_only, writes]}"


def field_of(part: Part, view: View) -> Field:
    field = view.reading.field(part)
    assert field is not None, f"there is no field {part.name}"
    return field


def said_of_synchronized(part: Part, view: View) -> str:
    path = view.reading.lock_path(part.lock, part.slot)
    held = view.reading.held[part.number].state(path) is True
    does = "which is held already" if held else "takes the lock and gives it back, but where the caller holds it"
    return f"synchronized on {view.reading.name(path)}, {does}"


def said_of_call(part: Part, view: View) -> str:
    """The called method with its printed tree, and what its locks are called here."""
    called = view.reading.called(part)
    assert called is not None, f"there is no method {part.name}"
    tree = view.shown.get(called.number, "")
    name = f"calls {called.full_name()}" + (f" ({tree})" if tree else "")
    return ", ".join([name] + names_of_locks(part, called, tree, view))


def names_of_locks(part: Part, called: Method, tree: str, view: View) -> list[str]:
    names = []
    for root, given in zip(called.slots, part.parts):
        if re.search(rf"\b{root}\b", tree):
            path = view.reading.path(given)
            names.append(f"whose {root} " + (f"is {view.reading.name(path)}" if path else "has no name here"))
    return names


def said_of_do(part: Part, view: View) -> str:
    return WORDS[part.parts[0].word](part.parts[0], view)


WORDS: dict[str, Callable[[Part, View], str]] = {
    "get": said_of_access,
    "put": said_of_access,
    "sync": said_of_synchronized,
    "call": said_of_call,
    "new": lambda part, view: f"makes an object of {part.name}: a mover",
    "print": lambda part, view: "prints: atomic",
    "start": lambda part, view: "starts a thread: atomic",
    "if": lambda part, view: "if: the condition, then the greater of both branches",
    "while": lambda part, view: "while: the condition, then body and condition any number of times",
    "block": lambda part, view: "a block: its statements in sequence",
    "skip": lambda part, view: "nothing",
    "local": lambda part, view: f"declares {part.name}: the value, then a mover",
    "set": lambda part, view: f"assigns {part.name}: the value, then a mover",
    "return": lambda part, view: "returns: what its value is",
    "do": said_of_do,
}
