"""What each instruction does to a state. An action hands back the place of the next instruction where it isn't the
one behind it."""
from __future__ import annotations

from collections.abc import Callable
from typing import TYPE_CHECKING, Any, Optional

from .parts import Field, Part
from .states import BOTH, LEFT, OTHER, RIGHT, Fault, Object, Step, Stuck, Thread, Value, shown

if TYPE_CHECKING:
    from .machine import Machine

MOST_FRAMES = 1000


def wrapped(number: int) -> int:
    return (number + 2**31) % 2**32 - 2**31


def push(_: Machine, __: Step, thread: Thread, value: Value) -> None:
    thread.frames[-1].operands.append(value)


def load(_: Machine, __: Step, thread: Thread, slot: int) -> None:
    frame = thread.frames[-1]
    frame.operands.append(frame.slots[slot])


def store(_: Machine, step: Step, thread: Thread, slot: int) -> None:
    frame = thread.frames[-1]
    frame.slots[slot] = frame.operands.pop()
    step.change = ("local", frame.method.slots[slot], frame.slots[slot])


def drop(_: Machine, __: Step, thread: Thread, ___: None) -> None:
    thread.frames[-1].operands.pop()


def unary(_: Machine, __: Step, thread: Thread, sign: str) -> None:
    operands = thread.frames[-1].operands
    value = operands.pop()
    operands.append(not value if sign == "!" else wrapped(-value))


def binary(_: Machine, __: Step, thread: Thread, sign: str) -> None:
    operands = thread.frames[-1].operands
    left, right = operands[-2:]
    if sign in "/%" and right == 0:
        raise Fault("zero")
    del operands[-2:]
    operands.append(BINARY[sign](left, right))


def decide_and(_: Machine, __: Step, thread: Thread, right: int) -> Optional[int]:
    return decide(thread, False, right)


def decide_or(_: Machine, __: Step, thread: Thread, right: int) -> Optional[int]:
    return decide(thread, True, right)


def decide(thread: Thread, deciding: bool, right: int) -> Optional[int]:
    """The value of the left part stays where it decides; else the right part follows."""
    operands = thread.frames[-1].operands
    if operands[-1] is deciding:
        return None
    operands.pop()
    return right


def branch(_: Machine, __: Step, thread: Thread, other: int) -> Optional[int]:
    return None if thread.frames[-1].operands.pop() else other


def get(machine: Machine, step: Step, thread: Thread, name: str) -> None:
    operands = thread.frames[-1].operands
    found = machine.object_at(operands[-1])
    read = field_of(found, name)
    step.kind = machine.access(step.thread, operands.pop(), read, False)
    step.seen = None if read.final else (name, found.values[name])
    operands.append(found.values[name])


def put(machine: Machine, step: Step, thread: Thread, name: str) -> None:
    operands = thread.frames[-1].operands
    found = machine.object_at(operands[-2])
    value, address = operands.pop(), operands.pop()
    step.kind = machine.access(step.thread, address, field_of(found, name), True)
    step.change = ("field", address, name, found.values[name], value)
    found.values[name] = value


def field_of(found: Object, name: str) -> Field:
    own = found.type.field_named(name)
    assert own is not None, f"there is no field {name}"
    return own


def taken_off(operands: list[Any], count: int) -> list[Any]:
    """The last operands, which go."""
    place = len(operands) - count
    taken = operands[place:]
    del operands[place:]
    return taken


def new(machine: Machine, step: Step, thread: Thread, part: Part) -> None:
    operands = thread.frames[-1].operands
    made = machine.source.by_name[part.name]
    address = machine.make(step.thread, made, taken_off(operands, len(part.parts)))
    operands.append(address)
    step.change = ("object", address, made.name)


def call(machine: Machine, step: Step, thread: Thread, part: Part) -> None:
    operands = thread.frames[-1].operands
    method = machine.object_at(operands[-len(part.parts)]).type.method_named(part.name)
    assert method is not None, f"there is no method {part.name}"
    if len(thread.frames) >= MOST_FRAMES:
        raise Fault("depth")
    thread.frames.append(machine.frame(method, taken_off(operands, len(part.parts)), part))
    step.entered = method


def ret(_: Machine, step: Step, thread: Thread, __: None) -> None:
    frame = thread.frames.pop()
    step.left, step.back = frame.method, frame.part
    if not thread.frames:
        thread.status = "done"
    elif frame.method.result != "void":
        thread.frames[-1].operands.append(frame.operands.pop())


def acquire(machine: Machine, step: Step, thread: Thread, _: None) -> None:
    frame = thread.frames[-1]
    address = frame.operands[-1]
    found = machine.object_at(address)
    if found.holder not in (None, step.thread):
        raise Stuck(f"waits for {shown(address)} held by {found.holder}")
    frame.operands.pop()
    step.kind = BOTH if found.count else RIGHT
    found.holder, found.count = step.thread, found.count + 1
    frame.taken.append(address)
    step.change = ("lock", address, found.count)


def release(machine: Machine, step: Step, thread: Thread, _: None) -> None:
    address = thread.frames[-1].taken.pop()
    found = machine.heap[address]
    found.count -= 1
    if found.count == 0:
        found.holder, step.kind = None, LEFT
    step.change = ("unlock", address, found.count)


def print_number(machine: Machine, step: Step, thread: Thread, _: None) -> None:
    operands = thread.frames[-1].operands
    step.kind, step.change = OTHER, ("print", operands[-1])
    machine.output.append(operands.pop())


def start_thread(machine: Machine, step: Step, thread: Thread, _: None) -> None:
    operands = thread.frames[-1].operands
    machine.object_at(operands[-1])
    step.kind, step.change = OTHER, ("start", len(machine.threads))
    machine.start(operands.pop(), "run")
    machine.made.append(0)


Action = Callable[["Machine", Step, Thread, Any], Optional[int]]

ACTIONS: dict[str, Action] = {
    "push": push,
    "load": load,
    "store": store,
    "drop": drop,
    "un": unary,
    "bin": binary,
    "and": decide_and,
    "or": decide_or,
    "branch": branch,
    "get": get,
    "put": put,
    "new": new,
    "call": call,
    "ret": ret,
    "acquire": acquire,
    "release": release,
    "print": print_number,
    "start": start_thread,
}


def divided(left: int, right: int) -> int:
    return wrapped(abs(left) // abs(right) * (1 if (left < 0) == (right < 0) else -1))


BINARY: dict[str, Callable[[Any, Any], Value]] = {
    "<": lambda a, b: bool(a < b),
    "<=": lambda a, b: bool(a <= b),
    ">": lambda a, b: bool(a > b),
    ">=": lambda a, b: bool(a >= b),
    "==": lambda a, b: bool(a == b),
    "!=": lambda a, b: bool(a != b),
    "+": lambda a, b: wrapped(a + b),
    "-": lambda a, b: wrapped(a - b),
    "*": lambda a, b: wrapped(a * b),
    "/": divided,
    "%": lambda a, b: a - b * divided(a, b) if divided(a, b) != -(2**31) else 0,
}
