"""Machines of altered rules, of which the comparison with a JVM has to notice each (`jvm.py controls`).

A rule is altered where languages differ, or where an interpreter is easily wrong.
"""
from __future__ import annotations

from collections.abc import Iterable
from typing import Any, Optional

from jvm_reading import ACTIONS, Class, Code, Fault, Instruction, Machine, Method, Part, Step, Thread, shown, wrapped

LEAST, GREATEST = -(2**31), 2**31 - 1
CONTROLS: list[type[Altered]] = []

# A source whose deepest call has as many frames as the machine lets a thread have.
DEEPEST = (
    "class Main { int d(int n) { if (n <= 0) { return 0; } return this.d(n - 1) + 1; } "
    "void main() { System.out.println(this.d(998)); } }"
)


class AlteredCode(Code):
    """Code that is made otherwise."""

    def add(self, what: str, operand: Any, part: Part, following: int) -> int:
        """An instruction at the part's own place."""
        return self.put(Instruction(what, operand, part, part.at, following))


class Altered(Machine):
    """The machine with another rule, which its text tells."""

    made_code: type[Code] = AlteredCode

    def __init_subclass__(cls) -> None:
        CONTROLS.append(cls)

    def code(self, method: Method) -> Code:
        if method not in self.codes:
            self.codes[method] = self.made_code(self.source, method)
        return self.codes[method]

    def act(self, step: Step, thread: Thread, item: Instruction) -> Optional[int]:
        """What this machine does itself; else what the machine does."""
        own = getattr(self, f"do_{item.what}", None)
        if own is None:
            return super().act(step, thread, item)
        own(step, thread, thread.frames[-1], item.operand)
        return None

    def do_check(self, step: Step, thread: Any, frame: Any, _: None) -> None:
        self.object_at(frame.operands[-1])

    def do_both(self, step: Step, thread: Any, frame: Any, word: str) -> None:
        right, left = frame.operands.pop(), frame.operands.pop()
        frame.operands.append(left and right if word == "and" else left or right)


class WriteLooksFirst(Altered):
    """the receiver of a write is looked at before the value is evaluated"""

    class made_code(AlteredCode):
        def simple(self, part: Part, following: int) -> int:
            if part.word != "put":
                return super().simple(part, following)
            place = self.add("put", part.name, part, following)
            place = self.add("check", None, part, self.expression(part.parts[1], place))
            return self.expression(part.parts[0], place)


class CallLooksFirst(Altered):
    """the receiver of a call is looked at before the arguments are evaluated"""

    class made_code(AlteredCode):
        def expression(self, part: Part, following: int) -> int:
            if part.word != "call":
                return super().expression(part, following)
            place = self.expressions(part.parts[1:], self.add("call", part, part, following))
            return self.expression(part.parts[0], self.add("check", None, part, place))


class ValueBeforeReceiver(Altered):
    """the value of a write is evaluated before the receiver"""

    class made_code(AlteredCode):
        def simple(self, part: Part, following: int) -> int:
            if part.word != "put":
                return super().simple(part, following)
            place = self.add("put", part.name, part, self.add("swap", None, part, following))
            self.items[place], self.items[place - 1] = self.items[place - 1], self.items[place]
            self.items[place].following, self.items[place - 1].following = place - 1, following
            return self.expressions(list(reversed(part.parts)), place)

    def do_swap(self, step: Step, thread: Any, frame: Any, _: None) -> None:
        frame.operands[-2:] = reversed(frame.operands[-2:])


class RightOperandFirst(Altered):
    """the right operand is evaluated before the left one"""

    class made_code(AlteredCode):
        def expression(self, part: Part, following: int) -> int:
            if part.word != "bin":
                return super().expression(part, following)
            place = self.add("bin", part.name, part, following)
            return self.expressions(list(reversed(part.parts)), place)

    def do_bin(self, step: Step, thread: Any, frame: Any, sign: str) -> None:
        frame.operands[-2:] = reversed(frame.operands[-2:])
        ACTIONS["bin"](self, step, thread, sign)


class LastArgumentFirst(Altered):
    """arguments are evaluated from right to left"""

    class made_code(AlteredCode):
        def expression(self, part: Part, following: int) -> int:
            if part.word != "call":
                return super().expression(part, following)
            place = self.add("call", part, part, following)
            return self.expressions([part.parts[0], *reversed(part.parts[1:])], place)

    def do_call(self, step: Step, thread: Any, frame: Any, part: Part) -> None:
        first = len(frame.operands) - len(part.parts) + 1
        frame.operands[first:] = reversed(frame.operands[first:])
        ACTIONS["call"](self, step, thread, part)


class AndEvaluatesBoth(Altered):
    """`&&` evaluates both sides"""

    word = "and"

    class made_code(AlteredCode):
        word = "and"

        def expression(self, part: Part, following: int) -> int:
            if part.word != self.word:
                return super().expression(part, following)
            return self.expressions(part.parts, self.add("both", part.word, part, following))


class OrEvaluatesBoth(Altered):
    """`||` evaluates both sides"""

    class made_code(AndEvaluatesBoth.made_code):
        word = "or"


class Arithmetic(Machine):
    """The operators, for the machines below."""

    def result(self, sign: str, left: Any, right: Any) -> Any:
        """The value of an operator that is another one; None where it isn't."""

    def do_bin(self, step: Step, thread: Any, frame: Any, sign: str) -> None:
        left, right = frame.operands[-2:]
        value = None if sign in "/%" and right == 0 else self.result(sign, left, right)
        if value is None:
            ACTIONS["bin"](self, step, thread, sign)
        else:
            frame.operands[-2:] = [value]


class QuotientsRoundDown(Arithmetic, Altered):
    """a quotient is rounded down"""

    def result(self, sign: str, left: Any, right: Any) -> Any:
        return wrapped(left // right) if sign == "/" else None


class RemaindersOfDivisor(Arithmetic, Altered):
    """a remainder has the sign of the divisor"""

    def result(self, sign: str, left: Any, right: Any) -> Any:
        return left % right if sign == "%" else None


class SumsAreCut(Arithmetic, Altered):
    """a sum that is too great or too small is cut to the greatest or the least number"""

    def result(self, sign: str, left: Any, right: Any) -> Any:
        return min(max(left + right, LEAST), GREATEST) if sign == "+" else None


class ProductsAreCut(Arithmetic, Altered):
    """a product that is too great or too small is cut to the greatest or the least number"""

    def result(self, sign: str, left: Any, right: Any) -> Any:
        return min(max(left * right, LEAST), GREATEST) if sign == "*" else None


class LeastQuotientFaults(Arithmetic, Altered):
    """the least number divided by -1 is a fault"""

    def result(self, sign: str, left: Any, right: Any) -> Any:
        if sign == "/" and left == LEAST and right == -1:
            raise Fault("zero")


class EqualObjectsAreOne(Arithmetic, Altered):
    """objects of one class are the same"""

    def result(self, sign: str, left: Any, right: Any) -> Any:
        if sign not in ("==", "!=") or None in (left, right) or isinstance(left, int):
            return None
        return (self.object_at(left).type is self.object_at(right).type) == (sign == "==")


class StaticTypeChooses(Altered):
    """the method of the receiver's static type runs"""

    def do_call(self, step: Step, thread: Any, frame: Any, part: Part) -> None:
        receiver = frame.operands[-len(part.parts)]
        found = self.object_at(receiver)
        static = self.source.class_of(part.parts[0], frame.method)
        assert static is not None
        dynamic, found.type = found.type, static
        ACTIONS["call"](self, step, thread, part)
        found.type = dynamic


class OwnFinalsFirst(Altered):
    """a constructor's own final fields come before the inherited ones"""

    def make(self, thread: int, cls: Class, finals: Iterable[Any]) -> tuple[int, int]:
        fields = [f for f in cls.all_fields() if f.final]
        ordered = [f for f in fields if f.owner is cls] + [f for f in fields if f.owner is not cls]
        given = dict(zip((f.name for f in ordered), finals))
        return super().make(thread, cls, [given[f.name] for f in fields])


class FieldsBeginWithOne(Altered):
    """a number's field begins with 1"""

    def make(self, thread: int, cls: Class, finals: Iterable[Any]) -> tuple[int, int]:
        address = super().make(thread, cls, finals)
        for field in cls.all_fields():
            if field.type == "int" and not field.final:
                self.heap[address].values[field.name] = 1
        return address


class FirstReleaseFrees(Altered):
    """the first release frees a lock that was taken twice"""

    def do_release(self, step: Step, thread: Any, frame: Any, _: None) -> None:
        found = self.heap[frame.taken.pop()]
        if found.holder == step.thread:
            found.holder, found.count = None, 0


class ReturnKeepsLocks(Altered):
    """a return gives no lock back"""

    class made_code(AlteredCode):
        def return_(self, part: Part, locks: list[Part]) -> int:
            return super().return_(part, [])


class FaultFrees(Altered):
    """a fault gives the locks back"""

    def step(self, number: int) -> Step:
        step = super().step(number)
        for found in self.heap.values():
            if step.fault and found.holder == number:
                found.holder, found.count = None, 0
        return step


class FewerFrames(Altered):
    """a thread may have 999 frames"""

    def do_call(self, step: Step, thread: Any, frame: Any, part: Part) -> None:
        if len(thread.frames) >= 999:
            raise Fault("depth")
        ACTIONS["call"](self, step, thread, part)


class InheritedMethodRuns(Altered):
    """a thread runs the furthest ancestor's `run`"""

    def do_start(self, step: Step, thread: Any, frame: Any, _: None) -> None:
        address = frame.operands[-1]
        ACTIONS["start"](self, step, thread, None)
        line = self.heap[address].type.line()
        self.threads[-1].method = next(m for c in reversed(line) for m in c.methods if m.name == "run")


def name_of(machine: type[Altered]) -> str:
    return (machine.__doc__ or machine.__name__).strip()
