"""What a state of the machine is made of: objects, frames and threads; and what a step was."""
from __future__ import annotations

from dataclasses import dataclass, field
from typing import Any, Optional, Tuple, Union

from .instructions import Code
from .parts import Class, Method, Part

RIGHT, LEFT, BOTH, OTHER, BARE = "right", "left", "both", "other", "bare"

Address = Tuple[int, int]
Value = Union[None, bool, int, Address]


class Stuck(Exception):
    """A thread has no step: the text says why."""


class Fault(Exception):
    """`null`, `zero` or `depth`."""


@dataclass(eq=False)
class Object:
    type: Class
    values: dict[str, Value]
    holder: Optional[int] = None
    count: int = 0


@dataclass(eq=False)
class Frame:
    method: Method
    code: Code
    place: int
    slots: list[Value]
    # the call that made it
    part: Optional[Part]
    operands: list[Any] = field(default_factory=list)
    # the objects whose locks it took
    taken: list[Address] = field(default_factory=list)


@dataclass(eq=False)
class Thread:
    on: Address
    method: Method
    status: str = "ready"
    frames: list[Frame] = field(default_factory=list)


@dataclass(eq=False)
class Step:
    """What a step was: its thread, the method and the part that it belongs to, its offset, its kind, and what it
    changed."""

    thread: int
    method: Method
    part: Part
    at: int
    what: str
    # the number of frames before the step
    depth: int
    kind: str = BOTH
    change: Optional[Tuple[Any, ...]] = None
    # a mutable field that it read, with its value
    seen: Optional[Tuple[str, Value]] = None
    # the methods of a frame that it pushed or popped, and the call that a popped frame goes back to
    entered: Optional[Method] = None
    left: Optional[Method] = None
    back: Optional[Part] = None
    fault: str = ""


def shown(value: Value) -> str:
    if isinstance(value, tuple):
        return f"{value[0]}:{value[1]}"
    return "null" if value is None else str(value).lower()
