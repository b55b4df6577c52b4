"""The machine of docs/machine.md, step by step, to tell of each step where it stands in the text, its kind, and what
it changes.

    machine = Machine(source)
    step = machine.step(1)         one step of thread 1: a Step; Stuck where it has none
    machine.text()                 the state, as `atomic run` writes it

It is the scripts' own reading of the machine. Whoever shows steps holds the state of each front against what `atomic
run` writes of it, so a step that is shown is one that the program takes.
"""
from __future__ import annotations

from collections.abc import Iterable
from typing import Optional

from .actions import ACTIONS
from .instructions import Code, Instruction
from .parts import Class, Field, Method, Part
from .source import Source
from .states import BARE, BOTH, OTHER, Address, Fault, Frame, Object, Step, Stuck, Thread, Value, shown

FIRST_VALUES: dict[str, Value] = {"int": 0, "boolean": False}


class Machine:
    def __init__(self, source: Source) -> None:
        self.source = source
        self.codes: dict[Method, Code] = {}
        self.heap: dict[Address, Object] = {}
        self.threads: list[Thread] = []
        self.output: list[int] = []
        # how many objects each thread has made
        self.made = [0]
        main = source.by_name["Main"]
        self.start(self.make(0, main, []), "main")

    def start(self, on: Address, name: str) -> None:
        method = self.heap[on].type.method_named(name)
        assert method is not None, f"there is no method {name}"
        self.threads.append(Thread(on, method))

    def make(self, thread: int, type_: Class, finals: Iterable[Value]) -> Address:
        address = (thread, self.made[thread])
        self.made[thread] += 1
        given = iter(finals)
        values = {own.name: next(given) if own.final else FIRST_VALUES.get(own.type) for own in type_.all_fields()}
        self.heap[address] = Object(type_, values)
        return address

    def code(self, method: Method) -> Code:
        if method not in self.codes:
            self.codes[method] = Code(self.source, method)
        return self.codes[method]

    # A turn.

    def ready(self, number: int) -> Thread:
        """The thread, where it can be asked for a step."""
        if number >= len(self.threads):
            raise Stuck("is absent")
        thread = self.threads[number]
        if thread.status not in ("ready", "running"):
            raise Stuck(f"is {thread.status}")
        return thread

    def step(self, number: int) -> Step:
        thread = self.ready(number)
        if thread.status == "ready":
            return self.enter_first(number, thread)
        frame = thread.frames[-1]
        item = frame.code.items[frame.place]
        step = Step(number, frame.method, item.part, item.at, item.what, len(thread.frames))
        try:
            after = self.act(step, thread, item)
        except Fault as fault:
            step.fault = str(fault)
            thread.status = f"faulted {fault}"
            return step
        place = item.following if after is None else after
        # the frame of a `ret` is gone
        if place is not None:
            frame.place = place
        return step

    def act(self, step: Step, thread: Thread, item: Instruction) -> Optional[int]:
        """What an instruction does; the place of the next one where it isn't the one behind it."""
        return ACTIONS[item.what](self, step, thread, item.operand)

    def enter_first(self, number: int, thread: Thread) -> Step:
        step = Step(number, thread.method, thread.method.body, thread.method.at, "enter", 0)
        thread.status, step.entered = "running", thread.method
        thread.frames.append(self.frame(thread.method, [thread.on], None))
        return step

    def frame(self, method: Method, given: list[Value], part: Optional[Part]) -> Frame:
        """A frame whose first variables are `this` and the arguments."""
        code = self.code(method)
        slots: list[Value] = [*given, *([0] * (len(method.slots) - len(given)))]
        return Frame(method, code, code.entry, slots, part)

    def run(self, schedule: Iterable[int]) -> list[Step]:
        """The steps of a schedule; Stuck with the first entry that can't step, as the program tells it."""
        steps = []
        for count, number in enumerate(schedule, 1):
            try:
                steps.append(self.step(number))
            except Stuck as stuck:
                raise Stuck(f"entry {count}: thread {number} {stuck}") from None
        return steps

    def can_step(self, number: int) -> bool:
        """Whether the thread has a step."""
        try:
            thread = self.ready(number)
        except Stuck:
            return False
        if thread.status == "ready":
            return True
        frame = thread.frames[-1]
        if frame.code.items[frame.place].what != "acquire":
            return True
        wanted: Value = frame.operands[-1]
        return not isinstance(wanted, tuple) or self.heap[wanted].holder in (None, number)

    def object_at(self, value: Value) -> Object:
        if not isinstance(value, tuple):
            raise Fault("null")
        return self.heap[value]

    def access(self, thread: int, address: Value, accessed: Field, writes: bool) -> str:
        """The kind of an access."""
        if accessed.final:
            return BOTH
        if not accessed.guard:
            return OTHER
        for name in accessed.guard[1:]:
            address = self.heap[address].values[name] if isinstance(address, tuple) else None
        if isinstance(address, tuple) and self.heap[address].holder == thread:
            return OTHER if accessed.writes_only and writes else BOTH
        return OTHER if accessed.writes_only and not writes else BARE

    # The text of a state.

    def text(self) -> str:
        lines = [f"print {number}" for number in self.output]
        objects = sorted(self.heap.items())
        for address, found in objects:
            values = "".join(f" {name}={shown(value)}" for name, value in found.values.items())
            lines.append(f"object {shown(address)} {found.type.name}{values}")
        lines += [f"lock {shown(at)} thread {found.holder} count {found.count}" for at, found in objects if found.count]
        lines += self.thread_lines()
        return "".join(line + "\n" for line in lines)

    def thread_lines(self) -> list[str]:
        lines = []
        for number, thread in enumerate(self.threads):
            running = thread.status == "running"
            where = f" {thread.frames[-1].method.full_name()} {len(thread.frames)}" if running else ""
            lines.append(f"thread {number} {thread.status}{where}")
        return lines

    def line_of(self, number: int) -> Optional[int]:
        """The source's line of the next step of a thread that runs."""
        thread = self.threads[number]
        if thread.status != "running":
            return None
        frame = thread.frames[-1]
        return self.source.place(frame.code.items[frame.place].at)[0]

    def inside(self, number: int) -> bool:
        """Whether the thread stands inside an atomic call."""
        return any(frame.method.atomic for frame in self.threads[number].frames)
